#!/usr/bin/env python3
"""The keyer: what its words say, the end form that -o writes, and that nothing is done where the words say nothing."""
import os
import subprocess
import tempfile

import harness
from harness import run, same, start

from forms import image_of
from worked import E, E_LISTING, NO_SUPPLY, P12_LISTING, struck_grid, struck_listing

USAGE = "usage: keyer [pin R | strike R | narrow A B | -o FILE].. < FORM; see word {}\n"
# P12's end on file, by hand: states 2 2 0 0 2, line four 2..2.
P12 = image_of([1, 0, 0, 0, 1], [(0, 1, 2), (1, 2, 2), (0, 2, 0), (2, 3, 0), (3, 4, 2)], 2, 2)
# Form E on file, confirmed: only line four changes.
CONFIRMED = E[:-4] + bytes([1, 0, 2, 0])

# Words with which form E is keyed, and what is printed.
SAID = [
    ("", E_LISTING),
    ("strike 3 pin 1", "ok 1 0 2 2\n" + P12_LISTING),
    ("pin 1 strike 3", "ok 0 1 2 2\n" + P12_LISTING),
    ("strike 3 strike 4", "refused 14 0\nstep 1\n"),
    ("strike 4 strike 3", "refused 14 0\nstep 1\n"),
    ("strike 003 pin " + "0" * 4095 + "1", "ok 1 0 2 2\n" + P12_LISTING),
    ("narrow 0 65535", E_LISTING),
    ("pin 65535", "refused 12 0\nstep 0\n"),
    ("narrow 65535 0", "refused 13 0\nstep 0\n"),
    ("strike 3 " * 300 + "strike 4", "refused 14 0\nstep 300\n"),
]

# Words that say nothing, and the first of them that does not.
UNSAID = [
    ("list", 1), ("-", 1), ("-p", 1), ("Pin 1", 1), ("pinned 1", 1), ("strike3", 1), ("3", 1), ("pi 1", 1), ("-o=end", 1),
    ("pin", 1), ("strike 3 pin", 3), ("narrow 1", 1), ("strike 3 narrow", 3), ("pin 1 2", 3), ("narrow 1 2 3", 4), ("pin strike 3", 1),
    ("pin x", 1), ("pin -1", 1), ("pin +1", 1), ("pin 1.", 1), ("pin 0x1", 1), ("pin 1: strike 3", 1), ("pin / strike 3", 1),
    ("pin 65536", 1), ("pin 99999999999999999999999", 1), ("narrow 65536 1", 1), ("narrow 1 65536", 1), ("narrow 1 x", 1), ("narrow x 1", 1),
    ("pin " + "0" * 4096 + "1", 1),   # longer than any word that is read
    ("-o", 1), ("strike 3 -o", 3), ("-o end -o", 3), ("-o end -o other", 3), ("-o end pin 1 -o end", 5),
    ("-o end pin 65536", 3), ("pin 1 -o end strike x", 5), ("pin -o end 1", 1), ("narrow 1 -o end 2", 1),
]


class Room:
    """A folder in which the keyer is run."""

    def __init__(self, folder):
        self.folder = folder

    def path(self, name):
        return os.path.join(self.folder, name)

    def keyed(self, image, words):
        """What is printed on both outputs, and how much of the input was read."""
        with open(self.path("image"), "wb+") as file:
            file.write(image)
            file.seek(0)
            done = subprocess.run([*start("keyer"), *words], cwd=self.folder, stdin=file, capture_output=True, timeout=120)
            read = os.lseek(file.fileno(), 0, os.SEEK_CUR)
        os.remove(self.path("image"))
        return done.stdout.decode(), done.stderr.decode(), read

    def put(self, name, data):
        with open(self.path(name), "wb") as file:
            file.write(data)

    def files(self):
        """All that is in the folder, which is empty afterwards."""
        held = {}
        for name in os.listdir(self.folder):
            with open(self.path(name), "rb") as file:
                held[name] = file.read()
            os.remove(self.path(name))
        return held


def words_alone(room):
    for words, wanted in SAID:
        same(f"keyer {words[:60]}", room.keyed(E, words.split()), (wanted, "", len(E)), E)
    for words, at in UNSAID:
        same(f"keyer {words[:60]}", room.keyed(E, words.split()), (USAGE.format(at), "", 0), E)
    for words in ([""], ["pin", ""], ["pin 1"], ["pin", "1 "], ["pin", " 1"], ["pin", "1\n"]):
        same(f"keyer {words}", room.keyed(E, words), (USAGE.format(1), "", 0), E)
    same("no file where nothing is asked for", room.files(), {})


def refusals(room):
    """With no amendment a refusal is the lister's one line."""
    long = E + bytes(9000)
    for name, image, words, wanted in (
        ("no amendment", NO_SUPPLY, "", "refused 10 0\n"),
        ("-o alone", NO_SUPPLY, "-o end", "refused 10 0\n"),
        ("the form", NO_SUPPLY, "pin 0", "refused 10 0\nstep 0\n"),
        ("the form, a step later in the words", NO_SUPPLY, "-o end pin 0 pin 0", "refused 10 0\nstep 0\n"),
        ("too long, no amendment", long, "", "refused 3 0\n"),
        ("too long", long, "pin 0", "refused 3 0\nstep 0\n"),
        ("at the second step", E, "strike 3 -o end strike 4", "refused 14 0\nstep 1\n"),
    ):
        # one byte more than the longest form is read, and no further
        same(f"refused: {name}", room.keyed(image, words.split()), (wanted, "", min(len(image), 5401)), image)
        same(f"refused: {name}, files", room.files(), {}, image)
    room.put("end", b"kept")
    room.keyed(E, "-o end strike 3 strike 4".split())
    same("a refusal keeps the file", room.files(), {"end": b"kept"})


def written(room):
    for words, listing, image in (
        ("-o end", E_LISTING, CONFIRMED),
        ("-o end strike 3 pin 1", "ok 1 0 2 2\n" + P12_LISTING, P12),
        ("pin 1 -o end strike 3", "ok 0 1 2 2\n" + P12_LISTING, P12),
        ("strike 3 pin 1 -o end", "ok 1 0 2 2\n" + P12_LISTING, P12),
        ("-o pin strike 3 pin 1", "ok 1 0 2 2\n" + P12_LISTING, P12),
        ("-o -o strike 3 pin 1", "ok 1 0 2 2\n" + P12_LISTING, P12),
    ):
        same(f"keyer {words}", room.keyed(E, words.split()), (listing, "", len(E)), E)
        name = words.split()[words.split().index("-o") + 1]
        same(f"keyer {words}: the file", room.files(), {name: image}, E)
    same("what is written is listed alike", run("lister", P12).decode(), "ok 0 0 2 2\n" + P12_LISTING, P12)

    room.put("end", bytes(9000))
    room.keyed(E, "strike 3 pin 1 -o end".split())
    same("a longer file is overwritten", room.files(), {"end": P12})

    room.put("form", E)
    with open(room.path("form"), "rb") as form:
        subprocess.run([*start("keyer"), *"-o form strike 3 pin 1".split()], cwd=room.folder, stdin=form, capture_output=True, timeout=120)
    same("a form is keyed over itself", room.files(), {"form": P12})

    largest = image_of(*struck_grid(256, 1024))
    end = largest[:-4] + bytes([0, 1, 0, 1])   # 256..256
    same("the largest form", room.keyed(largest, "strike 1023 -o end".split()), (struck_listing(256, 1024), "", 5400))
    same("the largest form, its file", room.files(), {"end": end})


def unwritten(room):
    """Where the file cannot be written standard error says so, and nothing is listed."""
    long = "x" * 5000
    for name, why in (
        ("none/end", "No such file or directory"),
        ("", "No such file or directory"),
        (".", "Is a directory"),
        ("/dev/full", "No space left on device"),
        (long, "File name too long"),
    ):
        same(f"-o {name[:20]}", room.keyed(E, ["strike", "3", "-o", name]), ("", f"{name[:4096]}: {why}\n", len(E)), E)
    same("no file", room.files(), {})


def main():
    with tempfile.TemporaryDirectory() as folder:
        room = Room(folder)
        words_alone(room)
        refusals(room)
        written(room)
        unwritten(room)
    harness.finish()


if __name__ == "__main__":
    main()

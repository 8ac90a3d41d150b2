#!/usr/bin/env python3
"""Forms written as text: the sample forms, each kind of bad line with its message, and random texts beside the independent reader of texts.
former.py [SEED [COUNT]]"""
import glob
import os
import random
import subprocess
import sys

import harness
from harness import each, listings, same, start

import forms
import inputs
import texts
from forms import image_of
from worked import E_LISTING, FORMS

NAMES = ("struck", "possible", "fixed")
TWO = "supply\nplace\nrun 0 1 possible\n"   # a text that lacks its count
TOO_LONG = "the text is longer than 65,536 bytes"

# What is wrong with each, worked out by hand. Where a line is named, all before it are right.
WRONG = [
    ("an unknown word", "supply\nsocket\ncount 1 1\n", "line 2: word 1 is not place, supply, run or count"),
    ("a capital letter", "Supply\ncount 1 1\n", "line 1: word 1 is not place, supply, run or count"),
    ("a longer word", "supply\n\n# ..\nplaces\n", "line 4: word 1 is not place, supply, run or count"),
    ("a shorter word", "suppl\n", "line 1: word 1 is not place, supply, run or count"),
    ("a carriage return inside a line", "place\rplace\ncount 1 1\n", "line 1: word 1 is not place, supply, run or count"),
    ("two carriage returns", "place\r\r\ncount 1 1\n", "line 1: word 1 is not place, supply, run or count"),
    ("a form feed", "\fplace\ncount 1 1\n", "line 1: word 1 is not place, supply, run or count"),
    ("a byte 0", "supply\0\ncount 1 1\n", "line 1: word 1 is not place, supply, run or count"),
    ("a place with a number", "place 0\ncount 1 1\n", "line 1: word 2 is one too many"),
    ("a supply with a comment", "supply # at the door\ncount 1 1\n", "line 1: word 2 is one too many"),
    ("run alone", TWO + "run\n", "line 4: word 2 is missing: a number"),
    ("a run with one end", TWO + "run 0 \t\n", "line 4: word 3 is missing: a number"),
    ("a run without a state", TWO + "run 0 1\n", "line 4: word 4 is missing: fixed, possible or struck"),
    ("a run with a number for its state", TWO + "run 0 1 2\n", "line 4: word 4 is not fixed, possible or struck"),
    ("a pinned run", TWO + "run 0 1 pinned\n", "line 4: word 4 is not fixed, possible or struck"),
    ("a run with a word more", TWO + "run 0 1 fixed possible\n", "line 4: word 5 is one too many"),
    ("a run with a state for an end", TWO + "run 0 fixed\n", "line 4: word 3 is not a number in decimal digits"),
    ("count alone", TWO + "count", "line 4: word 2 is missing: a number"),
    ("a count without high", TWO + "count 1", "line 4: word 3 is missing: a number"),
    ("a count with a word more", TWO + "count 1 2 3\n", "line 4: word 4 is one too many"),
    ("a count a second time", "count 1 1\n" + TWO + "count 1 1\n", "line 5: word 1 is a second count"),
    ("a bad count a second time", "count 1 1\n" + TWO + "count 1\n", "line 5: word 3 is missing: a number"),
    ("a negative number", TWO + "count -1 2\n", "line 4: word 2 is not a number in decimal digits"),
    ("a plus sign", TWO + "count 1 +2\n", "line 4: word 3 is not a number in decimal digits"),
    ("hexadecimal digits", TWO + "count 0x1 2\n", "line 4: word 2 is not a number in decimal digits"),
    ("the byte before 0", TWO + "count / 2\n", "line 4: word 2 is not a number in decimal digits"),
    ("the byte after 9", TWO + "count 1 1:\n", "line 4: word 3 is not a number in decimal digits"),
    ("a comma", TWO + "count 1 1,000\n", "line 4: word 3 is not a number in decimal digits"),
    ("65,536", TWO + "count 65536 65536\n", "line 4: word 2 is a number above 65,535"),
    ("655,360", TWO + "run 0 655360 fixed\n", "line 4: word 3 is a number above 65,535"),
    ("2 to the 64", TWO + "run 0 18446744073709551616 fixed\n", "line 4: word 3 is a number above 65,535"),
    ("2 to the 32, and 1", TWO + "count 0 4294967297\n", "line 4: word 3 is a number above 65,535"),
    ("a letter after too large a number", TWO + "count 0 4294967297x\n", "line 4: word 3 is not a number in decimal digits"),
    ("the first wrong line", "plase\nplace 0\ncount\n", "line 1: word 1 is not place, supply, run or count"),
    ("the first wrong word", TWO + "run x 65536 pinned too\n", "line 4: word 2 is not a number in decimal digits"),
    ("a wrong line after too many places", "place\n" * 300 + "x\n", "line 301: word 1 is not place, supply, run or count"),
    ("no text", "", "line 1: there is no count"),
    ("an empty line", "\n", "line 2: there is no count"),
    ("no count", TWO, "line 4: there is no count"),
    ("no count, and no line feed", TWO + "place", "line 5: there is no count"),
    ("a count in a comment", "supply\n#count 1 1\n", "line 3: there is no count"),
    ("no place", "count 1 1\n", "refused 2 0: there is no place, or more than 256 places, or more than 1,024 runs"),
    ("257 places", "place\n" * 257 + "count 1 1\n", "refused 2 0: there is no place, or more than 256 places, or more than 1,024 runs"),
    ("1,000 places", "supply\n" * 1000 + "count 1 1\n", "refused 2 0: there is no place, or more than 256 places, or more than 1,024 runs"),
    ("1,025 runs", "supply\n" * 256 + "run 0 1 fixed\n" * 1025 + "count 1 1\n", "refused 2 0: there is no place, or more than 256 places, or more than 1,024 runs"),
    ("2,000 runs", "supply\n" * 256 + "run 0 1 fixed\n" * 2000 + "count 1 1\n", "refused 2 0: there is no place, or more than 256 places, or more than 1,024 runs"),
    ("ends the other way round", TWO + "run 1 0 fixed\ncount 1 1\n", "refused 5 1: the run's ends are not two of the places, the smaller one first"),
    ("a run to place 2 of 2", "run 0 2 fixed\n" + TWO + "count 1 1\n", "refused 5 0: the run's ends are not two of the places, the smaller one first"),
    ("a run to place 257", TWO + "run 0 257 fixed\ncount 1 1\n", "refused 5 1: the run's ends are not two of the places, the smaller one first"),
    ("a run from place 256", "supply\nplace\nrun 256 1 possible\ncount 1 1\n", "refused 5 0: the run's ends are not two of the places, the smaller one first"),
    ("a run twice", TWO + "run 0 1 struck\ncount 1 1\n", "refused 6 1: the run has the ends of an earlier run"),
    ("2..1", TWO + "count 2 1\n", "refused 7 0: low is above high"),
    ("65,537 bytes", TWO + "count 1 1\n" + "#" * (65537 - len(TWO) - 10), TOO_LONG),
    ("70,000 bytes, wrong from the start", "x\n" * 35000, TOO_LONG),
]

P7 = image_of([1, 0], [(0, 1, 1)], 1, 5)
# Ways to write P7, by hand.
RIGHT = [
    ("plainly", TWO + "count 1 5\n"),
    ("with no line feed at the end", TWO + "count 1 5"),
    ("with the count and the run first", "count 1 5\nrun 0 1 possible\nsupply\nplace\n"),
    ("with carriage returns", (TWO + "count 1 5\n").replace("\n", "\r\n")),
    ("with a carriage return at the very end", TWO + "count 1 5\r"),
    ("with blanks", "\n \t\n  supply\t \n\tplace\n\t run \t 0  1\tpossible  \n count  1 5 \n\n"),
    ("with comments", "# a\n  #b\n\t# c d\n#\n##\n" + TWO + "# run 0 1 fixed\ncount 1 5\n# end"),
    ("with zeros before its numbers", "supply\nplace\nrun 000 0000000000000000000001 possible\ncount 01 00005\n"),
    ("in 65,536 bytes", TWO + "count 1 5\n" + "#" * (65536 - len(TWO) - 10)),
]


def written(text):
    """What former writes, and what it says."""
    done = subprocess.run(start("former"), input=text, capture_output=True, timeout=120)
    return (done.returncode, done.stdout, done.stderr.decode("latin-1"))


def alike(name, cases):
    """Each text gives this image, and this line on standard error."""
    for (text, image, message), got in zip(cases, each(written, [text for text, _, _ in cases])):
        same(name, got, (0, image, message), text)


def key(name):
    """A worked form is known by what stands before the colon."""
    return name.split(":")[0]


def examples():
    """The sample forms, by what their first comment says that they are."""
    for path in sorted(glob.glob(os.path.join(harness.ROOT, "examples", "*.txt"))):
        with open(path, "rb") as file:
            text = file.read()
        yield key(text.decode().split("\n")[0].removeprefix("# ")), text


def random_text(rng, supplies, runs, low, high):
    """These fields as a text, laid out in some way."""
    blank = lambda least: "".join(rng.choice(" \t") for _ in range(rng.choice([least, least, least, 1, 2, 5])))
    decimal = lambda n: "0" * rng.choice([0, 0, 0, 0, 1, 9]) + str(n)
    line = lambda *words: blank(0) + "".join(word + blank(1) for word in words[:-1]) + words[-1] + blank(0)
    nothing = lambda: rng.choice(["", blank(0), blank(0) + "# " + rng.choice(["run 0 1 fixed", "count", "\xe9", "#", "place"])])
    kinds = [
        [line("supply" if supply else "place") for supply in supplies],
        [line("run", decimal(u), decimal(v), NAMES[state]) for u, v, state in runs],
        [line("count", decimal(low), decimal(high))],
    ]
    order = [at for at, kind in enumerate(kinds) for _ in kind]
    if rng.random() < 0.7:
        rng.shuffle(order)
    few = rng.choice([0, 0.1, 0.5]) if len(order) < 50 else 0.01
    lines = []
    for at in order:
        while rng.random() < few:
            lines.append(nothing())
        lines.append(kinds[at].pop(0))
    ending = rng.choice(["\n", "\n", "\r\n"])
    return (ending.join(lines) + rng.choice(["", ending])).encode()


def random_fields(rng):
    """Most are forms; of the others the writer refuses all that a text can say."""
    fields = inputs.large_fields(rng) if rng.random() < 0.05 else inputs.small_fields(rng)
    if rng.random() < 0.7:
        return fields
    if rng.random() < 0.2:
        return inputs.bad_numbers(rng, *fields)
    supplies, runs, low, high = rng.choice([inputs.bad_run, inputs.repeated_run, inputs.bad_line])(rng, *fields)
    return supplies, [(u, v, min(state, 2)) for u, v, state in runs], low, high


def damaged(rng, text):
    """The text with a word or some bytes of it changed."""
    if rng.random() < 0.3:
        at = rng.randrange(len(text) + 1)
        return text[:at] + rng.choice([b"", b"\n", b" ", b"\r", b"#", b"\0", rng.randbytes(2)]) + text[at + rng.randrange(3):]
    lines = text.split(b"\n")
    at = rng.randrange(len(lines))
    words = lines[at].split() or [b""]
    where = rng.randrange(len(words))
    word = rng.choice([b"", b"run", b"count", b"place", b"x", b"fixed", b"pinned", b"-1", b"65536", b"99999999999999999999", words[where] + b" 1", words[where][:-1]])
    lines[at] = b" ".join(words[:where] + [word] + words[where + 1:])
    return b"\n".join(lines)


def main():
    seed = int(sys.argv[1]) if len(sys.argv) > 1 else 20261115
    count = int(sys.argv[2]) if len(sys.argv) > 2 else 300
    rng = random.Random(seed)

    worked = {key(name): (image, listing) for name, image, listing in FORMS if name[0] == "P" or name == "form E"}
    shown = dict(examples())
    same("each worked form has its example", sorted(shown), sorted(worked))
    names = [name for name in shown if name in worked]
    images = []
    for name, (status, image, message) in zip(names, each(written, [shown[name] for name in names])):
        same(f"example: {name}", (status, image, message), (0, worked[name][0], ""), shown[name])
        same(f"read independently: {name}", texts.written(shown[name]), (worked[name][0], ""), shown[name])
        images.append(image)
    for name, listing in zip(names, listings("lister", images)):
        same(f"listed: {name}", listing, worked[name][1], shown[name])
    shell = subprocess.run("./run former < examples/e.txt | ./run lister", shell=True, cwd=harness.ROOT, capture_output=True, timeout=120)
    same("the command in README", (shell.stdout.decode(), shell.stderr), (E_LISTING, b""))

    for name, text, message in WRONG:
        same(f"read independently: {name}", texts.written(text.encode()), (b"", message + "\n"), text.encode())
    for (name, text, message), got in zip(WRONG, each(written, [text.encode() for _, text, _ in WRONG])):
        same(name, got, (0, b"", message + "\n"), text.encode()[:200])
    alike("P7, written in other ways", [(text.encode(), P7, "") for _, text in RIGHT])

    sound, unsound = [], []
    for _ in range(count):
        fields = random_fields(rng)
        text = random_text(rng, *fields)
        try:
            forms.check_numbers(len(fields[0]), len(fields[1]))
            forms.check_fields(*fields)
            sound.append((text, image_of(*fields), ""))
        except forms.Refused as refusal:
            unsound.append((text, b"", f"{refusal}: {texts.MEANINGS[refusal.number]}\n"))
    alike(f"a random form, seed {seed}", sound)
    alike(f"random fields that are no form, seed {seed}", unsound)
    broken = [damaged(rng, random_text(rng, *inputs.small_fields(rng))) for _ in range(count // 2)]
    alike(f"a damaged text, seed {seed}", [(text, *texts.written(text)) for text in broken])
    kinds = sorted({message.split()[1] for _, _, message in unsound})
    print(f"seed {seed}: {len(sound)} forms, {len(unsound)} refused, {len(broken)} damaged")
    same("the writer's refusals that a text can bring about came up", kinds, ["2", "5", "6", "7"])
    harness.finish()


if __name__ == "__main__":
    main()

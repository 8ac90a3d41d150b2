#!/usr/bin/env python3
"""The forms that the paper works by hand, and form E's listing, against the independent enumerator and the built programs."""
import os
import subprocess
import sys

import harness
from harness import run, same, words_of

import enumerator
import forms
from enumerator import NARROW, PIN, STRIKE
from forms import image_of

# Form E and its listing, as the paper prints them.
E = bytes.fromhex("""
03 00 01 00 14 00 05 00 02 00 19 00 05 00 03 00 32 00 01 00
01 00 00 00 01
00 00 01 00 02  01 00 02 00 01  00 00 02 00 01
02 00 03 00 01  03 00 04 00 01
01 00 09 00
""")
E_LISTING = """\
ok 0 0 1 2
run 0 0 1 2 1
run 1 1 2 1 1
run 2 0 2 1 0
run 3 2 3 1 1
run 4 3 4 1 0
place 0 1 0
place 1 0 0
place 2 0 0
place 3 0 0
place 4 1 4
"""


def lines(*each):
    return "".join(line + "\n" for line in each)


def struck_grid(n, m):
    """n places, each with a supply, and m struck runs between different pairs: only the wiring without runs is lawful."""
    return [1] * n, [(u, v, 0) for u in range(n) for v in range(u + 1, n)][:m], 0, 65535


def struck_listing(n, m):
    supplies, runs, *_ = struck_grid(n, m)
    return lines(f"ok 0 0 {n} {n}", *(f"run {r} {u} {v} 0 0" for r, (u, v, _) in enumerate(runs)), *(f"place {k} 1 {k}" for k in range(n)))


# Each form's name, its image and the lister's whole output, worked out by hand.
FORMS = [
    ("form E", E, E_LISTING),
    ("P1", image_of([1], [], 1, 1), lines("ok 0 0 1 1", "place 0 1 0")),
    ("P2: no supply", image_of([0], [], 1, 1), lines("refused 10 0")),
    ("P3: 0..0", image_of([1], [], 0, 0), lines("refused 11 0")),
    ("P4: struck at 2..2", image_of([1, 1], [(0, 1, 1)], 2, 2), lines("ok 1 0 2 2", "run 0 0 1 0 0", "place 0 1 0", "place 1 1 1")),
    ("P5: pinned at 1..1", image_of([1, 1], [(0, 1, 1)], 1, 1), lines("ok 0 1 1 1", "run 0 0 1 2 1", "place 0 1 0", "place 1 1 0")),
    ("P6: fixed at 2..2", image_of([1, 1], [(0, 1, 2)], 2, 2), lines("refused 11 0")),
    ("P7: pinned at 1..5", image_of([1, 0], [(0, 1, 1)], 1, 5), lines("ok 0 1 1 1", "run 0 0 1 2 1", "place 0 1 0", "place 1 0 0")),
    ("P7 with the run struck", image_of([1, 0], [(0, 1, 0)], 1, 5), lines("refused 10 1")),
    ("P8: the last would close a loop", image_of([1, 0, 0], [(0, 1, 2), (1, 2, 2), (0, 2, 1)], 1, 1),
     lines("ok 1 0 1 1", "run 0 0 1 2 1", "run 1 1 2 2 1", "run 2 0 2 0 0", "place 0 1 0", "place 1 0 0", "place 2 0 0")),
    ("P9: all three fixed", image_of([1, 0, 0], [(0, 1, 2), (1, 2, 2), (0, 2, 2)], 1, 1), lines("refused 9 2")),
    ("P9 without a supply", image_of([0, 0, 0], [(0, 1, 2), (1, 2, 2), (0, 2, 2)], 1, 1), lines("refused 9 2")),
    ("P10", image_of([1, 0, 0], [(0, 1, 1), (0, 2, 1), (1, 2, 1)], 0, 9),
     lines("ok 0 0 1 1", "run 0 0 1 1 1", "run 1 0 2 1 1", "run 2 1 2 1 0", "place 0 1 0", "place 1 0 0", "place 2 0 0")),
    ("P11: all struck at 3..3", image_of([1, 1, 1], [(0, 1, 1), (0, 2, 1), (1, 2, 1)], 3, 3),
     lines("ok 3 0 3 3", "run 0 0 1 0 0", "run 1 0 2 0 0", "run 2 1 2 0 0", "place 0 1 0", "place 1 1 1", "place 2 1 2")),
    ("P11 at 2..2", image_of([1, 1, 1], [(0, 1, 1), (0, 2, 1), (1, 2, 1)], 2, 2),
     lines("ok 0 0 2 2", "run 0 0 1 1 1", "run 1 0 2 1 0", "run 2 1 2 1 0", "place 0 1 0", "place 1 1 0", "place 2 1 2")),
    ("n = 256 and m = 1,024", image_of(*struck_grid(256, 1024)), struck_listing(256, 1024)),
    ("n = 257", image_of(*struck_grid(257, 0)), lines("refused 2 0")),
    ("m = 1,025", image_of(*struck_grid(256, 1025)), lines("refused 2 0")),
]

# P12's end: states 2 2 0 0 2 and 2..2. By hand: run 2 would close a loop with 0 and 1, and run 4 is all that joins place 3 to a supply.
P12_LISTING = """\
run 0 0 1 2 1
run 1 1 2 2 1
run 2 0 2 0 0
run 3 2 3 0 0
run 4 3 4 2 1
place 0 1 0
place 1 0 0
place 2 0 0
place 3 0 3
place 4 1 3
"""
# Both written in at once, and so counted at once: run 2 is struck, and run 4 pinned.
FORMS.append(("P12: both amendments written in", image_of([1, 0, 0, 0, 1], [(0, 1, 2), (1, 2, 2), (0, 2, 1), (2, 3, 0), (3, 4, 1)], 1, 2), "ok 1 1 2 2\n" + P12_LISTING))
NO_SUPPLY = image_of([0], [], 1, 1)

# An image, amendments keyed in this order, and the listing's first line: the counts are those of the last filtering. A refusal has its step.
KEYED = [
    ("form E alone", E, [], "ok 0 0 1 2"),
    ("P12: strike 3, pin 1 (which strikes 2)", E, [(STRIKE, 3, 0), (PIN, 1, 0)], "ok 1 0 2 2"),
    ("P12: pin 1, strike 3 (which pins 4)", E, [(PIN, 1, 0), (STRIKE, 3, 0)], "ok 0 1 2 2"),
    ("form E: strike 3, strike 4", E, [(STRIKE, 3, 0), (STRIKE, 4, 0)], ("refused 14 0", 1)),
    ("form E: strike 4, strike 3", E, [(STRIKE, 4, 0), (STRIKE, 3, 0)], ("refused 14 0", 1)),
    ("a strike repeated", E, [(STRIKE, 3, 0), (STRIKE, 3, 0)], "ok 0 0 2 2"),
    ("a pin of a fixed run", E, [(PIN, 0, 0)], "ok 0 0 1 2"),
    ("a strike of a fixed run", E, [(STRIKE, 0, 0)], ("refused 14 0", 0)),
    ("a pin of a run struck by the filter", E, [(PIN, 1, 0), (PIN, 2, 0)], ("refused 14 0", 1)),
    ("narrowed to 1..1: runs 3 and 4 pinned", E, [(NARROW, 0, 1)], "ok 0 2 1 1"),
    ("narrowed past the confirmed range, 1..2", E, [(NARROW, 3, 9)], ("refused 14 0", 0)),
    ("narrowed to 2..1", E, [(NARROW, 2, 1)], ("refused 13 0", 0)),
    ("amendment 0", E, [(0, 0, 0)], ("refused 12 0", 0)),
    ("amendment 4", E, [(4, 2, 1)], ("refused 12 0", 0)),
    ("run 5 of 5 pinned", E, [(PIN, 5, 0)], ("refused 12 0", 0)),
    ("a strike with a third number", E, [(STRIKE, 3, 1)], ("refused 12 0", 0)),
    ("1 before 12", b"", [(PIN, 0, 0)], ("refused 1 0", 0)),
    ("10 before 12", NO_SUPPLY, [(PIN, 0, 0)], ("refused 10 0", 0)),
    ("P3's 11 before 13", image_of([1], [], 0, 0), [(NARROW, 2, 1)], ("refused 11 0", 0)),
]


def keyed(image, amendments):
    """The listing's first line, or the refusal and its step."""
    end = enumerator.key(image, amendments)
    return (str(end[0]), end[1]) if isinstance(end, tuple) else end.listing().split("\n")[0]


def command(image, *words):
    program = os.path.join(harness.ROOT, "independent", "enumerator.py")
    return subprocess.run([sys.executable, program, *words], input=image, capture_output=True, timeout=120).stdout.decode()


def main():
    for name, image, wanted in FORMS:
        same(f"listed: {name}", enumerator.listing(image), wanted, image)
        same(f"lister: {name}", run("lister", image).decode(), wanted, image)
    for name, image, amendments, wanted in KEYED:
        same(f"keyed: {name}", keyed(image, amendments), wanted, image)
        if all(kind in (PIN, STRIKE, NARROW) and (kind == NARROW or b == 0) for kind, _, b in amendments):   # the others no words say
            wanted = enumerator.end_listing(enumerator.key(image, amendments))
            same(f"keyer: {name}", run("keyer", image, *words_of(amendments)).decode(), wanted, image)

    for words, counts in (("strike 3 pin 1", "ok 1 0 2 2\n"), ("pin 1 strike 3", "ok 0 1 2 2\n")):
        same(f"P12's end: {words}", command(E, "key", *words.split()), counts + P12_LISTING, E)
    same("the command's listing", command(E, "list"), E_LISTING, E)
    same("the command's refusal", command(NO_SUPPLY, "list"), "refused 10 0\n", NO_SUPPLY)
    # At two segments place 3 hangs on run 3 or run 4: either may be struck, not both.
    words = "narrow 2 3 strike 4 strike 3"
    same("the command's refusal at a step", command(E, "key", *words.split()), "refused 14 0\nstep 2\n", E)

    # The enumerator lends no buffers: the independent writer is given the confirmed form.
    form = enumerator.key(E, []).form
    records = enumerator.key(E, []).image()[25:50]
    for size, wanted in ((54, ("written", 54)), (53, ("refused", 8, 0))):
        same(f"form E in a buffer of {size}", forms.write(form.supplies, records, form.low, form.high, bytes(size))[0], wanted, E)
    harness.finish()


if __name__ == "__main__":
    main()

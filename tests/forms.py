#!/usr/bin/env python3
"""Reading and writing: each number at its place and in its order, the limits, and random forms and damaged bytes beside the independent reader.
forms.py [SEED [COUNT]]"""
import random
import sys

import harness
from harness import each, run, same

import forms
import inputs
import lent
from forms import image_of

E = image_of([1, 0, 0, 0, 1], [(0, 1, 2), (1, 2, 1), (0, 2, 1), (2, 3, 1), (3, 4, 1)], 1, 9)


def poke(image, at, *values):
    """The image with other bytes from at on."""
    return image[:at] + bytes(values) + image[at + len(values):]


def grid(n, m):
    """n places, each with a supply, and m possible runs between different pairs."""
    pairs = [(u, v, 1) for u in range(n) for v in range(u + 1, n)]
    return image_of([1] * n, pairs[:m], 0, 65535)


# What the paper's table says of each, worked out by hand. Form E's places stand at 20, its runs at 25, line four at 50.
READ = [
    ("form E", E, "form 5 5 1 9"),
    ("nothing", b"", "refused 1 0"),
    ("19 bytes", E[:19], "refused 1 0"),
    ("two entries", poke(E, 0, 2), "refused 1 0"),
    ("entry number 259", poke(E, 1, 1), "refused 1 0"),
    ("places of kind 2", poke(E, 2, 2), "refused 1 0"),
    ("runs of kind 5", poke(E, 8, 5), "refused 1 0"),
    ("line four of kind 2", poke(E, 14, 2), "refused 1 0"),
    ("line four of two records", poke(E, 18, 2), "refused 1 0"),
    ("1 before 2: no places either", poke(poke(E, 18, 0), 6, 0), "refused 1 0"),
    ("no places", poke(E, 6, 0), "refused 2 0"),
    ("257 places", poke(E, 6, 1, 1), "refused 2 0"),
    ("1,025 runs", poke(E, 12, 1, 4), "refused 2 0"),
    ("2 before 3: no places, an offset too", poke(poke(E, 6, 0), 4, 21), "refused 2 0"),
    ("places at 21", poke(E, 4, 21), "refused 3 0"),
    ("runs at 26", poke(E, 10, 26), "refused 3 0"),
    ("line four at 51", poke(E, 16, 51), "refused 3 0"),
    ("one byte short", E[:53], "refused 3 0"),
    ("one byte long", E + b"\0", "refused 3 0"),
    ("5,401 bytes", E + bytes(5401 - 54), "refused 3 0"),
    ("3 before 4: a place byte of 2 too", poke(E, 20, 2) + b"\0", "refused 3 0"),
    ("place 0 says 2", poke(E, 20, 2), "refused 4 0"),
    ("places 3 and 4 say 255", poke(E, 23, 255, 255), "refused 4 3"),
    ("4 before 5: run 0 too", poke(poke(E, 24, 2), 29, 3), "refused 4 4"),
    ("run 0 in state 3", poke(E, 29, 3), "refused 5 0"),
    ("run 4 from 4 to 4", poke(E, 45, 4), "refused 5 4"),
    ("run 3 from 3 to 2", poke(E, 40, 3, 0, 2, 0), "refused 5 3"),
    ("run 4 to place 5", poke(E, 47, 5), "refused 5 4"),
    ("run 4 from 259", poke(E, 46, 1), "refused 5 4"),
    ("5 before 6: run 1 repeats run 0, run 2 in state 9", poke(poke(E, 30, 0, 0, 1, 0), 39, 9), "refused 5 2"),
    ("run 2 repeats run 1", poke(E, 35, 1, 0, 2, 0), "refused 6 2"),
    ("run 4 repeats run 0, struck", poke(E, 45, 0, 0, 1, 0, 0), "refused 6 4"),
    ("6 at the first repeat: runs 3 and 4 both", poke(E, 40, 0, 0, 1, 0, 1, 1, 0, 2, 0), "refused 6 3"),
    ("6 before 7", poke(poke(E, 45, 0, 0, 1, 0), 50, 10), "refused 6 4"),
    ("low 10, high 9", poke(E, 50, 10), "refused 7 0"),
    ("0 to 0", poke(E, 50, 0, 0, 0), "form 5 5 0 0"),
    ("9 to 65,535", poke(E, 50, 9, 0, 255, 255), "form 5 5 9 65535"),
    ("one place, no runs", image_of([0], [], 0, 0), "form 1 0 0 0"),
    ("256 places, 1,024 runs", grid(256, 1024), "form 256 1024 0 65535"),
    ("257 places laid out", grid(257, 0), "refused 2 0"),
    ("1,025 runs laid out", grid(256, 1025)[:5401], "refused 2 0"),
]

# Places, run records, line four, the buffer's length; the reply.
E_PLACES, E_RUNS = E[20:25], E[25:50]
WRITE = [
    ("form E in 54", E_PLACES, E_RUNS, 1, 9, 54, "written 54"),
    ("form E in 5,400", E_PLACES, E_RUNS, 1, 9, 5400, "written 54"),
    ("form E in 53", E_PLACES, E_RUNS, 1, 9, 53, "refused 8 0"),
    ("no buffer", E_PLACES, E_RUNS, 1, 9, 0, "refused 8 0"),
    ("the largest form", grid(256, 1024)[20:276], grid(256, 1024)[276:5396], 0, 65535, 5400, "written 5400"),
    ("the largest form, a byte short", grid(256, 1024)[20:276], grid(256, 1024)[276:5396], 0, 65535, 5399, "refused 8 0"),
    ("no places", b"", E_RUNS, 1, 9, 60, "refused 2 0"),
    ("257 places", bytes(257), b"", 1, 9, 400, "refused 2 0"),
    ("1,025 runs", bytes(256), bytes(5125), 1, 9, 5500, "refused 2 0"),
    ("1,024 runs and a byte", bytes(256), bytes(5121), 1, 9, 5500, "refused 2 0"),
    ("a place byte of 2 before all else", poke(E_PLACES, 2, 2), E_RUNS[:-1], 9, 1, 0, "refused 4 2"),
    ("a torn last run", E_PLACES, E_RUNS[:-1], 9, 1, 0, "refused 5 4"),
    ("a bad run before the torn one", E_PLACES, poke(E_RUNS, 4, 7)[:-1], 9, 1, 0, "refused 5 0"),
    ("a repeat", E_PLACES, poke(E_RUNS, 20, 0, 0, 1, 0), 9, 1, 0, "refused 6 4"),
    ("low above high", E_PLACES, E_RUNS, 10, 9, 0, "refused 7 0"),
]


def listing(image):
    """What read_form should print, by the independent reader."""
    try:
        form = forms.read(image)
    except forms.Refused as refusal:
        return refusal.listing()
    lines = [f"form {len(form.supplies)} {len(form.runs)} {form.low} {form.high}"]
    lines += [f"place {k} {supply}" for k, supply in enumerate(form.supplies)]
    lines += [f"run {r} {u} {v} {state}" for r, (u, v, state) in enumerate(form.runs)]
    return "".join(line + "\n" for line in lines)


def read_case(case):
    name, image, wanted = case
    got = run("read_form", image).decode()
    return name, image, got, wanted


def write_case(case):
    name, *fields, _ = case
    data = lent.data(*fields)
    reply, _, buffer = run("write_form", data).partition(b"\n")
    return name, data, reply.decode(), buffer


def random_image(rng):
    """A small form, whole or damaged somewhere."""
    return (inputs.small_form if rng.random() < 0.5 else inputs.damaged_form)(rng)


def main():
    seed = int(sys.argv[1]) if len(sys.argv) > 1 else 20261115
    count = int(sys.argv[2]) if len(sys.argv) > 2 else 600
    rng = random.Random(seed)

    for name, image, got, wanted in each(read_case, READ):
        same(f"read: {name}", got.split("\n")[0], wanted, image)
        same(f"the independent reader: {name}", listing(image).split("\n")[0], wanted, image)

    for case, (name, data, reply, buffer) in zip(WRITE, each(write_case, WRITE)):
        _, *fields, wanted = case
        same(f"write: {name}", reply, wanted, data)
        same(f"the buffer: {name}", buffer, lent.reply(*fields)[1], data)

    images = [random_image(rng) for _ in range(count)]
    seen = {}
    for image, (_, _, got, wanted) in zip(images, each(read_case, [("", i, listing(i)) for i in images])):
        kind = " ".join(wanted.split()[:2]) if wanted.startswith("refused") else "form"
        seen[kind] = seen.get(kind, 0) + 1
        same(f"random image, seed {seed}", got, wanted, image)
    print("seed", seed, "random images:", ", ".join(f"{k}: {v}" for k, v in sorted(seen.items())))
    same("every number from 1 to 7 came up, and forms", sorted(seen), ["form"] + [f"refused {k}" for k in range(1, 8)])
    harness.finish()


if __name__ == "__main__":
    main()

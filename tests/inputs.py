"""Random inputs: small and large forms, damaged ones, lists of amendments. What they are to give is worked out elsewhere."""
import struct

import harness   # for the way to independent/

import forms
import quick
from enumerator import NARROW, PIN, POSSIBLE, STRIKE
from forms import Form, Refused, image_of


def small_fields(rng):
    """Up to 8 places and 13 runs: often lawful, often at an end of its count range."""
    n = rng.choice([1, 2, 3, 4, 4, 5, 5, 6, 6, 7, 8])
    pairs = [(u, v) for u in range(n) for v in range(u + 1, n)]
    weights = rng.choice([(1, 6, 1), (2, 6, 2), (1, 2, 2), (1, 8, 0), (0, 3, 4)])
    most = min(len(pairs), 13)
    runs = [(u, v, rng.choices((0, 1, 2), weights)[0]) for u, v in rng.sample(pairs, rng.choice([most, rng.randint(0, most)]))]
    density = rng.choice([0.3, 0.6, 0.9])
    supplies = [int(rng.random() < density) for _ in range(n)]
    low = rng.choice([0, 1, 1, 1, 2, 2, 3, 4])
    return supplies, runs, low, rng.choice([low, low, low + 1, low + 2, low + 5, 65535])


def large_fields(rng):
    """Up to 256 places and 1,024 runs: places in trees, with more runs between them, and line four at or near an end of what can be had."""
    n = rng.choice([rng.randint(8, 256), 256])
    label = rng.sample(range(n), n)   # so that the trees do not follow the numbers of the places
    reach, kept, fixed, loops = rng.choice([3, 30, n]), rng.choice([0.9, 0.99, 1]), rng.random(), rng.choice([0, 0, 0.4])
    runs = {}
    for k in range(1, n):
        if rng.random() < kept:
            runs[pair(label[k], label[rng.randrange(max(0, k - reach), k)])] = 2 if rng.random() < fixed else 1
    for _ in range(rng.choice([0, n // 8, n, 1024])):
        ends = pair(*rng.sample(range(n), 2))
        if len(runs) < 1024:
            runs.setdefault(ends, rng.choices((0, 1, 2), (1, 4, loops))[0])
    runs = [(*ends, state) for ends, state in runs.items()]
    rng.shuffle(runs)
    density = rng.choice([0.1, 0.5, 0.9])
    supplies = [int(rng.random() < density) for _ in range(n)]
    try:
        ends = quick.confirm(Form(supplies, runs, 0, 65535)).form
        least, most = ends.low, ends.high
    except Refused:
        least, most = 1, n
    between = rng.randint(least, most)
    return supplies, runs, *rng.choice(
        [(0, 65535), (0, least), (most, most), (most, 65535), (least, between), (between, between), (between, most), (0, least - 1), (most + 1, most + 1)])


def pair(u, v):
    return min(u, v), max(u, v)


def bad_place(rng, supplies, runs, low, high):
    supplies = list(supplies)
    supplies[rng.randrange(len(supplies))] = rng.choice([2, 3, 255])
    return supplies, runs, low, high


def bad_run(rng, supplies, runs, low, high):
    n, runs = len(supplies), list(runs) or [(0, 0, 1)]
    at = rng.randrange(len(runs))
    u, v, state = runs[at]
    runs[at] = rng.choice([(v, u, state), (u, u, state), (u, n, state), (u, v + 256, state), (n + 1, n + 2, state), (u, v, 3), (u, v, 255)])
    return supplies, runs, low, high


def repeated_run(rng, supplies, runs, low, high):
    runs = list(runs) if len(runs) > 1 else [(0, 1, 1), (0, 1, 1)]
    earlier, later = sorted(rng.sample(range(len(runs)), 2))
    runs[later] = (*runs[earlier][:2], rng.randint(0, 2))
    return supplies, runs, low, high


def bad_line(rng, supplies, runs, low, high):
    high = min(high, 9)
    return supplies, runs, high + rng.choice([1, 2, 256]), high


def bad_numbers(rng, supplies, runs, low, high):
    """Laid out in full, but with too few places, or too many places or runs."""
    return rng.choice([([], runs), ([1] * rng.randint(257, 300), runs), (supplies, [(0, 1, 1)] * rng.randint(1025, 1030))]) + (low, high)


def cut(rng, image):
    return image[: rng.randrange(len(image))]


def added(rng, image):
    return image + rng.randbytes(rng.choice([1, 1, 2, 5, 30, 6000]))


def changed(rng, image):
    image = bytearray(image)
    for _ in range(rng.randint(1, 3)):
        at = rng.randrange(len(image))
        image[at] = rng.choice([0, 1, 2, 3, image[at] ^ 1, image[at] + 1 & 255, rng.randrange(256)])
    return bytes(image)


def wrong_head(rng, image):
    """One number of the table of contents is another."""
    at = 2 * rng.randrange(10)
    number, = struct.unpack_from("<H", image, at)
    other = rng.choice([0, 1, 2, 3, 4, number + 1, number - 1, number + 256, rng.randrange(65536)]) & 65535
    return image[:at] + struct.pack("<H", other) + image[at + 2:]


def noise(rng, image):
    """Random bytes, at times behind the table of contents."""
    return rng.choice([b"", image[:20], image[:22]]) + rng.randbytes(rng.randrange(200))


BREAKS = [bad_place, bad_run, repeated_run, bad_line]   # one rule of 4 to 7 each
DAMAGES = [cut, added, changed, wrong_head, noise]


def small_form(rng):
    return image_of(*small_fields(rng))


def large_form(rng):
    return image_of(*large_fields(rng))


def broken_fields(rng):
    """The fields of a form that break one or two of the rules 4 to 7."""
    fields = large_fields(rng) if rng.random() < 0.02 else small_fields(rng)
    for way in rng.sample(BREAKS, rng.choice([1, 1, 1, 2])):
        fields = way(rng, *fields)
    return fields


def damaged_form(rng):
    """Bytes that are no form, but for a few that were changed into another one."""
    if rng.random() < 0.5:
        return image_of(*broken_fields(rng))
    if rng.random() < 0.1:
        return image_of(*bad_numbers(rng, *small_fields(rng)))
    return rng.choice(DAMAGES)(rng, small_form(rng))


def keyed_list(rng, random_form=small_form):
    """A form and two to five amendments. Most forms have lawful wirings, and most amendments are of what these leave open."""
    image = damaged_form(rng) if rng.random() < 0.1 else random_form(rng)
    try:
        form = quick.confirm(forms.read(image)).form
    except Refused:
        if rng.random() < 0.9:
            return keyed_list(rng, random_form)
        form = Form([1], [], 1, 1)
    possible = [r for r, (_, _, state) in enumerate(form.runs) if state == POSSIBLE]
    run_number = lambda: rng.choice(possible) if possible and rng.random() < 0.9 else rng.randint(0, len(form.runs))
    kinds = [
        lambda: (PIN, run_number(), 0),
        lambda: (STRIKE, run_number(), 0),
        lambda: (NARROW, rng.randint(0, form.low + 1), form.high + rng.randint(-1, 2)),
        lambda: rng.choice([(PIN, len(form.runs), 0), (STRIKE, 65535, 0), (NARROW, form.low + 1, form.low)]),   # not well formed
    ]
    return image, [rng.choices(kinds, (8, 8, 4, 1))[0]() for _ in range(rng.randint(2, 5))]

#!/usr/bin/env python3
"""The built programs beside the independent enumerating program, on random inputs, and how often each outcome came up.
compare.py [SEED [SCALE]]: SCALE times as many inputs of each kind. It fails where an outcome never came up, as it may at a SCALE below 1."""
import collections
import multiprocessing
import os
import random
import re
import struct
import sys
import tempfile

import harness
from harness import alone, listings, run, same, words_of

import enumerator
import inputs
import lent
import quick
from forms import Refused


def outcomes(image, listing):
    """What a listing shows of its form."""
    head, *lines = [line.split() for line in listing.splitlines()]
    if head[0] == "refused":
        shown = [f"refused {head[1]}"] + ([f"refused {head[1]}, place above 0"] if head[2] != "0" else [])
        return shown + ["refused, step above 0" for line in lines if line[1] != "0"]
    low, high = int(head[3]), int(head[4])
    given = struct.unpack("<HH", image[-4:])
    return ["accepted"] + [name for name, shown in {
        "runs struck": head[1] != "0",
        "runs pinned": head[2] != "0",
        "runs possible": any(line[0] == "run" and line[4] == "1" for line in lines),
        "low as given": low == given[0],
        "low raised": low > given[0],
        "high as given": high == given[1],
        "high lowered": high < given[1],
        "one count": low == high,
        "several counts": low < high,
    }.items() if shown]


# Each kind of input yields comparisons: what is compared, on which input, what it gave, what is right, and the outcomes to count.

def listed(images):
    for image, got in zip(images, listings("lister", images)):
        wanted = enumerator.listing(image)
        yield "lister", image, got, wanted, outcomes(image, wanted)
        yield "quick program", image, enumerator.listing(image, quick.confirm), wanted, []


def small_forms(rng, count):
    return listed([inputs.small_form(rng) for _ in range(count)])


def damaged_bytes(rng, count):
    return listed([inputs.damaged_form(rng) for _ in range(count)])


def large_forms(rng, count):
    """The quick program stands in for the enumerator, which would never end. On the small forms the two are compared."""
    images = [inputs.large_form(rng) for _ in range(count)]
    for image, got in zip(images, listings("lister", images)):
        wanted = enumerator.listing(image, quick.confirm)
        yield "lister", image, got, wanted, outcomes(image, wanted) + (LARGEST if len(image) == enumerator.LONGEST else [])


def lists(rng, count):
    return keyed(rng, [inputs.keyed_list(rng) for _ in range(count)], enumerator.confirm)


def large_lists(rng, count):
    return keyed(rng, [inputs.keyed_list(rng, inputs.large_form) for _ in range(count)], quick.confirm)


def keyed(rng, pairs, confirm):
    """Each list is keyed in its own order, backwards, and shuffled; what the keyer prints, and what it writes, with -o somewhere among the words."""
    with tempfile.TemporaryDirectory() as folder:
        file = os.path.join(folder, "end")
        for image, own in pairs:
            ends = []
            for order in dict.fromkeys(map(tuple, (own, own[::-1], rng.sample(own, len(own))))):   # each different order once
                at = rng.randint(0, len(order))
                words = words_of(order[:at]) + ["-o", file] + words_of(order[at:])
                got = alone("keyer", image, *words), taken(file)
                end = enumerator.key(image, order, confirm)
                wanted = enumerator.end_listing(end), None if isinstance(end, tuple) else end.image()
                yield f"keyer {' '.join(words_of(order))}", image, got, wanted, outcomes(image, wanted[0])
                ends.append(agreed(got[0]))
            try:
                wanted = agreed(enumerator.together(image, own, confirm).listing())
            except Refused as refusal:
                wanted = agreed(refusal.listing())
            yield f"every order of {own}", image, ends, [wanted] * len(ends), ["list refused" if wanted == "refused" else "list accepted"]


def taken(name):
    """What the file holds, which is then removed, or None where there is none."""
    if not os.path.exists(name):
        return None
    with open(name, "rb") as file:
        data = file.read()
    os.remove(name)
    return data


def agreed(listing):
    """What all orders of a list end in: the listing without its counts of struck and pinned runs, or some refusal."""
    return "refused" if listing.startswith("refused") else re.sub(r"^ok \d+ \d+", "ok", listing)


def lent_buffers(rng, count):
    """Number 8: write_form lends a buffer of any length, and the lister's always suffice."""
    for _ in range(count):
        places, runs, low, high = (inputs.broken_fields if rng.random() < 0.2 else inputs.small_fields)(rng)
        records = b"".join(struct.pack("<HHB", *record) for record in runs)
        length = 24 + len(places) + len(records)
        records = records[: len(records) - rng.choice([0, 0, 0, 0, 0, 0, 1, 4])]   # the last record may be torn
        size = rng.choice([0, length - 1, length - 1, length, length, length + 1, lent.ROOM])
        data = lent.data(places, records, low, high, size)
        reply, buffer = lent.reply(places, records, low, high, size)
        shown = [" ".join(reply.split()[:2])] if reply.startswith("refused") else ["written", "written, no room left"][: 1 + (size == length)]
        yield "write_form", data, run("write_form", data), reply.encode() + b"\n" + buffer, shown


READING = [f"refused {k}" for k in range(1, 8)] + [f"refused {k}, place above 0" for k in (4, 5, 6)]
LENT = ["refused 8", "written", "written, no room left"]
UNLAWFUL = ["refused 9", "refused 9, place above 0", "refused 10", "refused 10, place above 0", "refused 11"]
AMENDED = ["refused 12", "refused 13", "refused 14", "refused, step above 0", "list accepted", "list refused"]
ACCEPTED = ["accepted", "runs struck", "runs pinned", "runs possible", "low as given", "low raised", "high as given", "high lowered", "one count", "several counts"]
LARGEST = ["256 places, 1,024 runs"]

# How many inputs of each kind there are, how many of them go together, and which outcomes must come up: in all, every number from 1 to 14.
Kind = collections.namedtuple("Kind", "work count batch outcomes")
KINDS = {
    "small forms": Kind(small_forms, 20000, 500, UNLAWFUL + ACCEPTED),
    "damaged bytes": Kind(damaged_bytes, 5000, 500, READING),
    "lists": Kind(lists, 2000, 50, AMENDED + ACCEPTED),
    "lent buffers": Kind(lent_buffers, 400, 50, LENT),
    "large forms": Kind(large_forms, 200, 10, UNLAWFUL + ACCEPTED + LARGEST),
    "large lists": Kind(large_lists, 50, 5, ["refused 14", "refused, step above 0", "list accepted", "list refused", "runs struck", "runs pinned", "runs possible"]),
}


def work(batch):
    """A batch of one kind, from a seed of its own: how many comparisons were right, the differences, and the outcomes."""
    kind, seed, at, size = batch
    right, differences, seen = 0, [], collections.Counter()
    for name, data, got, wanted, shown in KINDS[kind].work(random.Random(f"{seed} {kind} {at}"), size):
        seen.update(shown)
        if got == wanted:
            right += 1
        else:
            differences.append((f"{kind}, seed {seed}: {name}", got, wanted, data))
    return right, differences, seen


def compare(seed, scale):
    """Every kind, on all cores; how often each outcome of each kind came up."""
    batches = []
    for kind, (_, count, batch, _) in KINDS.items():
        count = max(1, round(count * scale))
        batches += [(kind, seed, at, min(batch, count - at)) for at in range(0, count, batch)]
    total, done, told = sum(size for *_, size in batches), 0, 0
    seen = {kind: collections.Counter() for kind in KINDS}
    with multiprocessing.Pool() as pool:
        for (kind, _, _, size), (right, differences, shown) in zip(batches, pool.imap(work, batches)):
            harness.passed += right
            for difference in differences:
                same(*difference)
            seen[kind] += shown
            done += size
            if done - told >= 2000 or done == total:
                told = done
                print(f"compared {done} of {total} inputs, {harness.failed} differences", flush=True)
    return seen


def main():
    seed = int(sys.argv[1]) if len(sys.argv) > 1 else 20261115
    scale = float(sys.argv[2]) if len(sys.argv) > 2 else 1
    print(f"seed {seed}", flush=True)
    for program in ("lister", "keyer", "write_form"):
        harness.start(program)   # built here, before several processes want it
    seen = compare(seed, scale)

    print(" " * 26, *(f"{kind:>13}" for kind in KINDS))
    for name in READING + LENT + UNLAWFUL + AMENDED + ACCEPTED + LARGEST:
        print(f"{name:26}", *(f"{counts[name]:13}" for counts in seen.values()))
    for kind, counts in seen.items():
        for name in KINDS[kind].outcomes:
            same(f"{kind}: '{name}' came up", counts[name] > 0, True)
    harness.finish()


if __name__ == "__main__":
    main()

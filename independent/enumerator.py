#!/usr/bin/env python3
"""Confirms and amends forms by trying every wiring, straight from the paper's definitions. It shares nothing with crates/.
The work doubles with each possible run.

enumerator.py list < image
enumerator.py key [pin R | strike R | narrow A B].. < image"""
import sys

import forms
from forms import Form, Refused

STRUCK, POSSIBLE, FIXED = 0, 1, 2
PIN, STRIKE, NARROW = 1, 2, 3
LONGEST = 24 + forms.MOST_PLACES + forms.RECORD * forms.MOST_RUNS


class Confirmation:
    def __init__(self, form, wiring, segments, struck, pinned):
        self.form = form           # with the confirmed states and line four
        self.wiring = wiring       # the first wiring: a 1 or 0 for each run
        self.segments = segments   # for each place the smallest place in its segment of the first wiring
        self.struck, self.pinned = struck, pinned

    def image(self):
        return forms.image_of(self.form.supplies, self.form.runs, self.form.low, self.form.high)

    def listing(self):
        lines = [f"ok {self.struck} {self.pinned} {self.form.low} {self.form.high}"]
        lines += [f"run {r} {u} {v} {state} {used}" for r, ((u, v, state), used) in enumerate(zip(self.form.runs, self.wiring))]
        lines += [f"place {k} {supply} {segment}" for k, (supply, segment) in enumerate(zip(self.form.supplies, self.segments))]
        return "".join(line + "\n" for line in lines)


def segments_of(n, ends):
    """For each place the smallest place in its segment, where the runs with these ends are used."""
    above = list(range(n))   # a place of the same segment, never a larger one; the smallest has itself
    for u, v in ends:
        while above[u] != u:
            u = above[u]
        while above[v] != v:
            v = above[v]
        if u < v:
            above[v] = u
        else:
            above[u] = v
    for place in range(n):   # what stands above a place is smaller, so it is settled already
        above[place] = above[above[place]]
    return above


def has_loop(segments, ends):
    """Whether the runs with these ends, which make these segments, have a loop."""
    # k places are joined by k - 1 runs without a loop, and never by fewer. One more run closes a way, and that way goes through three
    # or more places since no pair of ends is listed twice. So there is a loop exactly where a segment has as many runs as places, or more.
    left = [0] * len(segments)
    for segment in segments:
        left[segment] += 1
    for u, _ in ends:
        left[segments[u]] -= 1
    for segment in segments:
        if left[segment] <= 0:
            return True
    return False


def check_fixed(form):
    """Number 9: the first run with which the fixed runs so far have a loop."""
    ends = []
    for r, (u, v, state) in enumerate(form.runs):
        if state == FIXED:
            ends.append((u, v))
            if has_loop(segments_of(len(form.supplies), ends), ends):
                raise Refused(9, r)


def check_supplies(form):
    """Number 10: the smallest place that no unstruck runs join to a supply."""
    segments = segments_of(len(form.supplies), [(u, v) for u, v, state in form.runs if state != STRUCK])
    supplied = {segment for segment, supply in zip(segments, form.supplies) if supply}
    for place, segment in enumerate(segments):
        if segment not in supplied:
            raise Refused(10, place)


def bit(form, r):
    """Run r in a wiring. The first run is the highest bit: of two wirings, the greater has 1 at the first run where they differ."""
    return 1 << len(form.runs) - 1 - r


def lawful_wirings(form):
    """Each lawful wiring and its number of segments, the greatest wiring first."""
    n = len(form.supplies)
    supplied = [place for place, supply in enumerate(form.supplies) if supply]
    fixed = sum(bit(form, r) for r, run in enumerate(form.runs) if run[2] == FIXED)
    possible = sum(bit(form, r) for r, run in enumerate(form.runs) if run[2] == POSSIBLE)
    unstruck = [(bit(form, r), (u, v)) for r, (u, v, state) in enumerate(form.runs) if state != STRUCK]
    choice = possible
    while choice >= 0:
        wiring = fixed | choice
        ends = [pair for flag, pair in unstruck if wiring & flag]
        segments = segments_of(n, ends)
        count = len(set(segments))
        if form.low <= count <= form.high and len({segments[place] for place in supplied}) == count and not has_loop(segments, ends):
            yield wiring, count
        choice = (choice - 1) & possible if choice else -1   # the next smaller choice of possible runs


def confirm(form):
    """The confirmation of a form that may be read, or Refused with 9 to 11."""
    check_fixed(form)
    check_supplies(form)
    lawful = list(lawful_wirings(form))
    if not lawful:
        # With 9 and 10 passed, theorem 1 of source document 000 makes this the same as high < MIN or low > MAX.
        raise Refused(11)
    by_some, by_all = 0, -1
    for wiring, _ in lawful:
        by_some |= wiring
        by_all &= wiring
    counts = [count for _, count in lawful]
    low, high = min(counts), max(counts)
    first = max(wiring for wiring, count in lawful if count == high)

    runs, struck, pinned = [], 0, 0
    for r, (u, v, state) in enumerate(form.runs):
        if state == POSSIBLE and not by_some & bit(form, r):
            state, struck = STRUCK, struck + 1
        elif state == POSSIBLE and by_all & bit(form, r):
            state, pinned = FIXED, pinned + 1
        runs.append((u, v, state))
    used = [int(first & bit(form, r) != 0) for r in range(len(runs))]
    segments = segments_of(len(form.supplies), [run[:2] for run, one in zip(runs, used) if one])
    return Confirmation(Form(form.supplies, runs, low, high), used, segments, struck, pinned)


def check_amendment(amendment, m):
    """Numbers 12 and 13."""
    kind, a, b = amendment
    if kind not in (PIN, STRIKE, NARROW) or kind != NARROW and (a >= m or b != 0):
        raise Refused(12)
    if kind == NARROW and a > b:
        raise Refused(13)


def amended(form, amendment):
    """The filtered form with the amendment written in, or Refused with 14."""
    kind, a, b = amendment
    runs, low, high = list(form.runs), form.low, form.high
    if kind == NARROW:
        low, high = max(low, a), min(high, b)
        if low > high:
            raise Refused(14)
    else:
        u, v, state = runs[a]
        if state == (STRUCK if kind == PIN else FIXED):
            raise Refused(14)
        runs[a] = (u, v, FIXED if kind == PIN else STRUCK)
    return Form(form.supplies, runs, low, high)


# What follows takes another confirm too, for forms of which every wiring cannot be tried.

def amend(image, amendment, confirm=confirm):
    """The confirmation after one amendment, or Refused: 1 to 7 and 9 to 11 speak of the form as sent, 12 to 14 of the amendment."""
    filtered = confirm(forms.read(image)).form
    check_amendment(amendment, len(filtered.runs))
    form = amended(filtered, amendment)
    try:
        return confirm(form)
    except Refused:
        raise Refused(14) from None   # only the amended form has no lawful wiring


def steps(image, amendments, confirm=confirm):
    """Each step when the amendments are keyed in this order, up to a refusal: its form, its amendment, and its Confirmation or Refused."""
    for amendment in amendments:
        try:
            end = amend(image, amendment, confirm)
        except Refused as refusal:
            yield image, amendment, refusal
            return
        yield image, amendment, end
        image = end.image()


def key(image, amendments, confirm=confirm):
    """The last confirmation when the amendments are keyed in this order, or the refusal and its step, counted from 0; none where there are none."""
    if not amendments:
        try:
            return confirm(forms.read(image))
        except Refused as refusal:
            return refusal, None
    *earlier, (_, _, end) = steps(image, amendments, confirm)
    return (end, len(earlier)) if isinstance(end, Refused) else end


def end_listing(end):
    """What is printed of an end of keying: the listing, or the refusal and then its step, if it has one."""
    if isinstance(end, Confirmation):
        return end.listing()
    refusal, step = end
    return refusal.listing() + ("" if step is None else f"step {step}\n")


def together(image, amendments, confirm=confirm):
    """The confirmation of the filtered form with all the amendments written in at once, or Refused."""
    form = confirm(forms.read(image)).form
    for amendment in amendments:
        check_amendment(amendment, len(form.runs))
        form = amended(form, amendment)
    return confirm(form)


def listing(image, confirm=confirm):
    """What the lister prints."""
    try:
        return confirm(forms.read(image)).listing()
    except Refused as refusal:
        return refusal.listing()


def amendments_of(words):
    """The amendments that these words name."""
    words, amendments = list(words), []
    while words:
        kind = {"pin": PIN, "strike": STRIKE, "narrow": NARROW}[words.pop(0)]
        a = int(words.pop(0))
        amendments.append((kind, a, int(words.pop(0)) if kind == NARROW else 0))
        if not all(0 <= number <= 65535 for number in amendments[-1]):
            raise ValueError("a number of more than 16 bits")
    return amendments


def main(words):
    try:
        if words[:1] not in (["list"], ["key"]) or words[0] == "list" and words[1:]:
            raise ValueError("list or key")
        amendments = amendments_of(words[1:])
    except (KeyError, IndexError, ValueError):
        sys.exit(__doc__)
    image = sys.stdin.buffer.read(LONGEST + 1)   # one byte more than the longest form, enough to see an overlong one
    sys.stdout.write(end_listing(key(image, amendments)))


if __name__ == "__main__":
    main(sys.argv[1:])

"""Confirms forms too large to try every wiring of, by theorem 1 of source document 000: a lawful wiring exists exactly if the fixed runs have
no loop, each component over unstruck runs holds a supply, and low..high meets MIN..MAX. The tests compare it with the enumerator on small forms."""
from enumerator import FIXED, POSSIBLE, STRUCK, Confirmation
from forms import Form, Refused


class Pieces:
    """The places that some runs join. The smallest place of a piece stands for it."""

    def __init__(self, supplies):
        self.above = list(range(len(supplies)))
        self.supplied = list(supplies)   # of the places that stand for a piece

    def find(self, place):
        while self.above[place] != place:
            place = self.above[place]
        return place

    def joined(self, u, v):
        return self.find(u) == self.find(v)

    def both_supplied(self, u, v):
        return self.supplied[self.find(u)] & self.supplied[self.find(v)]

    def join(self, u, v):
        u, v = sorted((self.find(u), self.find(v)))
        self.above[v] = u
        self.supplied[u] |= self.supplied[v]

    def standing(self):
        return [place for place, above in enumerate(self.above) if place == above]


def bridges_of(form):
    """Each unstruck run without which its ends are not joined, and whether the two sides both hold a supply: one depth-first search."""
    near = [[] for _ in form.supplies]
    for r, (u, v, state) in enumerate(form.runs):
        if state != STRUCK:
            near[u].append((v, r))
            near[v].append((u, r))
    order, bridges = {}, {}   # when each place was met; for each bridge the supplies beyond it

    def visit(place, by):
        """The earliest place that can be reached from here without the run that led here, and the supplies from here on."""
        earliest = order[place] = len(order)
        supplies = form.supplies[place]
        for other, r in near[place]:
            if r != by and other in order:
                earliest = min(earliest, order[other])
            elif r != by:
                reached, beyond = visit(other, r)
                if reached > order[place]:
                    bridges[r] = beyond
                earliest, supplies = min(earliest, reached), supplies + beyond
        return earliest, supplies

    sides = {}
    for place in range(len(form.supplies)):
        if place not in order:
            bridges.clear()
            _, supplies = visit(place, None)
            sides |= {r: 0 < beyond < supplies for r, beyond in bridges.items()}
    return sides


def confirm(form):
    """The confirmation of a form that may be read, or Refused with 9 to 11."""
    fixed, unstruck = Pieces(form.supplies), Pieces(form.supplies)
    for r, (u, v, state) in enumerate(form.runs):
        if state == FIXED and fixed.joined(u, v):
            raise Refused(9, r)
        if state == FIXED:
            fixed.join(u, v)
        if state != STRUCK:
            unstruck.join(u, v)
    for place in range(len(form.supplies)):
        if not unstruck.supplied[unstruck.find(place)]:
            raise Refused(10, place)
    least, most = len(unstruck.standing()), sum(fixed.supplied[place] for place in fixed.standing())   # MIN and MAX
    if form.high < least or form.low > most:
        raise Refused(11)
    low, high = max(form.low, least), min(form.high, most)
    runs, bridges = list(form.runs), bridges_of(form)
    for r, (u, v, state) in enumerate(form.runs):
        if state == POSSIBLE and (fixed.joined(u, v) or low > most - fixed.both_supplied(u, v)):
            runs[r] = (u, v, STRUCK)   # with the run fixed: a loop, or MAX too small
        elif state == POSSIBLE and r in bridges and not (bridges[r] and least + 1 <= high):
            runs[r] = (u, v, FIXED)    # with the run struck: a component without a supply, or MIN too large

    used = []   # each run in turn is fixed if a lawful wiring of high segments is left then, and else struck
    for u, v, state in form.runs:
        takes = state == POSSIBLE and not fixed.joined(u, v) and most - fixed.both_supplied(u, v) >= high
        if takes:
            most -= fixed.both_supplied(u, v)
            fixed.join(u, v)
        used.append(int(takes or state == FIXED))
    segments = [fixed.find(place) for place in range(len(form.supplies))]
    marks = [after for (_, _, before), (_, _, after) in zip(form.runs, runs) if before != after]
    return Confirmation(Form(form.supplies, runs, low, high), used, segments, marks.count(STRUCK), marks.count(FIXED))

"""The form on file, read and written straight from the paper's rules. It shares nothing with crates/."""
import struct

HEAD = 20          # the table of contents
RECORD = 5         # one run
MOST_PLACES = 256
MOST_RUNS = 1024


class Refused(Exception):
    """A refusal: the paper's number, and the place in the form."""

    def __init__(self, number, place=0):
        super().__init__(f"refused {number} {place}")
        self.number, self.place = number, place

    def listing(self):
        return f"{self}\n"


class Form:
    def __init__(self, supplies, runs, low, high):
        self.supplies = list(supplies)   # a 0 or 1 for each place
        self.runs = [tuple(r) for r in runs]   # (u, v, state)
        self.low, self.high = low, high


def check_fields(supplies, runs, low, high):
    """Numbers 4 to 7."""
    n = len(supplies)
    for place, supply in enumerate(supplies):
        if supply not in (0, 1):
            raise Refused(4, place)
    for number, (u, v, state) in enumerate(runs):
        if not (u < v < n and state in (0, 1, 2)):
            raise Refused(5, number)
    seen = set()
    for number, (u, v, _) in enumerate(runs):
        if (u, v) in seen:
            raise Refused(6, number)
        seen.add((u, v))
    if low > high:
        raise Refused(7)


def check_numbers(n, m):
    if not (1 <= n <= MOST_PLACES and m <= MOST_RUNS):
        raise Refused(2)


def read(image):
    """The form that these bytes are, or Refused with 1 to 7."""
    if len(image) < HEAD:
        raise Refused(1)
    count, *entries = struct.unpack_from("<10H", image)
    kinds, offsets, records = entries[0::3], entries[1::3], entries[2::3]
    if count != 3 or kinds != [1, 2, 3] or records[2] != 1:
        raise Refused(1)
    n, m = records[0], records[1]
    check_numbers(n, m)
    runs_at = HEAD + n
    line_at = runs_at + RECORD * m
    if offsets != [HEAD, runs_at, line_at] or len(image) != line_at + 4:
        raise Refused(3)
    supplies = list(image[HEAD:runs_at])
    runs = [struct.unpack_from("<HHB", image, runs_at + RECORD * r) for r in range(m)]
    low, high = struct.unpack_from("<HH", image, line_at)
    check_fields(supplies, runs, low, high)
    return Form(supplies, runs, low, high)


def image_of(supplies, runs, low, high):
    """The bytes of these fields, whether or not they make a form that may be read."""
    n, m = len(supplies), len(runs)
    head = struct.pack("<10H", 3, 1, HEAD, n & 0xFFFF, 2, (HEAD + n) & 0xFFFF, m & 0xFFFF, 3, (HEAD + n + RECORD * m) & 0xFFFF, 1)
    return head + bytes(supplies) + b"".join(struct.pack("<HHB", *r) for r in runs) + struct.pack("<HH", low, high)


def write(supplies, records, low, high, buffer):
    """The reply and the buffer after it: ('written', length) or ('refused', number, place)."""
    whole, torn = divmod(len(records), RECORD)
    try:
        check_numbers(len(supplies), whole + (torn > 0))
        runs = [struct.unpack_from("<HHB", records, RECORD * r) for r in range(whole)]
        if torn:
            runs.append((0, 0, 0))   # a record that is not all there lacks u < v < n
        check_fields(supplies, runs, low, high)
        image = image_of(supplies, runs, low, high)
        if len(buffer) < len(image):
            raise Refused(8)
    except Refused as refusal:
        return ("refused", refusal.number, refusal.place), buffer
    return ("written", len(image)), image + buffer[len(image):]

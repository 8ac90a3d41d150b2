"""A form as text, read straight from the rules: its fields, or what is wrong with it. It shares nothing with crates/."""
import re

import forms

MOST_BYTES = 65536
STATES = {b"struck": 0, b"possible": 1, b"fixed": 2}
MEANINGS = {
    2: "there is no place, or more than 256 places, or more than 1,024 runs",
    5: "the run's ends are not two of the places, the smaller one first",
    6: "the run has the ends of an earlier run",
    7: "low is above high",
}


class Wrong(Exception):
    """The one line that says what is wrong."""


def fault(line, word, what):
    return Wrong(f"line {line}: word {word} {what}")


def number(line, words, at):
    if at >= len(words):
        raise fault(line, at + 1, "is missing: a number")
    if not re.fullmatch(rb"[0-9]+", words[at]):
        raise fault(line, at + 1, "is not a number in decimal digits")
    if int(words[at]) > 65535:
        raise fault(line, at + 1, "is a number above 65,535")
    return int(words[at])


def state(line, words, at):
    if at >= len(words):
        raise fault(line, at + 1, "is missing: fixed, possible or struck")
    if words[at] not in STATES:
        raise fault(line, at + 1, "is not fixed, possible or struck")
    return STATES[words[at]]


def fields(text):
    """Supplies, runs, low, high; or Wrong."""
    if len(text) > MOST_BYTES:
        raise Wrong("the text is longer than 65,536 bytes")
    supplies, runs, count = [], [], None
    lines = text.split(b"\n")
    if not lines[-1]:
        lines.pop()   # what a line feed ends is a line; nothing after it is none
    for at, line in enumerate(lines, 1):
        words = re.findall(rb"[^ \t]+", line.removesuffix(b"\r"))
        if not words or words[0].startswith(b"#"):
            continue
        kind, length = words[0], 1
        if kind == b"run":
            item, length = (number(at, words, 1), number(at, words, 2), state(at, words, 3)), 4
        elif kind == b"count":
            item, length = (number(at, words, 1), number(at, words, 2)), 3
        elif kind not in (b"place", b"supply"):
            raise fault(at, 1, "is not place, supply, run or count")
        if len(words) > length:
            raise fault(at, length + 1, "is one too many")
        if kind == b"run":
            runs.append(item)
        elif kind != b"count":
            supplies.append(int(kind == b"supply"))
        elif count:
            raise fault(at, 1, "is a second count")
        else:
            count = item
    if not count:
        raise Wrong(f"line {len(lines) + 1}: there is no count")
    return supplies, runs, *count


def written(text):
    """What goes to standard output, and to standard error."""
    try:
        supplies, runs, low, high = fields(text)
        forms.check_numbers(len(supplies), len(runs))
        forms.check_fields(supplies, runs, low, high)
    except Wrong as wrong:
        return b"", f"{wrong}\n"
    except forms.Refused as refusal:
        return b"", f"{refusal}: {MEANINGS[refusal.number]}\n"
    return forms.image_of(supplies, runs, low, high), ""

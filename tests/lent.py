"""What write_form reads, and what it should write by the independent writer: the reply on a line, and the buffer, which held 170 everywhere."""
import struct

import harness   # for the way to independent/

import forms

ROOM = 6000   # write_form's own buffer, of which it lends the first bytes


def data(places, records, low, high, size):
    return struct.pack("<4H", len(places), low, high, size) + bytes(places) + records


def reply(places, records, low, high, size):
    """The reply's words, and the buffer after it."""
    words, buffer = forms.write(list(places), records, low, high, bytes([170]) * size)
    return " ".join(map(str, words)), buffer + bytes([170]) * (ROOM - size)

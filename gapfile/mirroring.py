"""A pair's upper side as a lower one: the problem with the sign of its objective turned, and the same rows.

D x (P - Q x f) is D x (Q x (-f) - (-P)), so the rows that prove f <= P/Q prove -f >= -P/Q. A call that takes lower
certificates alone answers of upper ones in this way.
"""
from __future__ import annotations

from .commands import CERTIFICATE, PROBLEM, Kind, read_command, write_command
from .reading import walk


def turned_problem(stream: bytes) -> bytes:
    """The problem with every coefficient of the objective turned. Raises WidthError where one does not fit then."""
    out = bytearray()
    for command in walk(stream, Kind.PROBLEM, 0, lambda _: None):
        if command.layout.byte == 0x02:
            out += write_command(PROBLEM[0x02], (-command.numbers[0],), command.monomial)
        else:
            out += stream[command.place:command.place + command.layout.length]
    return bytes(out)


def turned_certificate(stream: bytes) -> bytes:
    """The certificate with its side and the sign of its bound turned. Raises WidthError where that does not fit."""
    header = CERTIFICATE[0x10]
    side, scale, p, q = read_command(stream, 0, header).numbers
    return write_command(header, (1 - side, scale, -p, q)) + stream[header.length:]

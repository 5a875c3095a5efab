"""Bytes at addresses as text: Motorola S-records of 32 bits, and Intel hexadecimal text."""

from __future__ import annotations

TYPE_CHECKING = False
if TYPE_CHECKING:
    from typing import Iterable, Iterator, Tuple

    # Bytes, and the address of the first.
    Part = Tuple[int, bytes]

S_BYTES, HEX_BYTES = 32, 16
HEAD = b"HUNK"


def pieces(parts: Iterable[Part], size: int) -> Iterator[Part]:
    """At most so many bytes at a time, none of which goes past an address that is a multiple of this number."""
    for start, data in parts:
        at = 0
        while at < len(data):
            end = at + size - (start + at) % size
            yield start + at, data[at:end]
            at = end


def s_record(kind: int, address: int, width: int, data: bytes) -> bytes:
    """A line of S-records: its kind, how many bytes follow, the address of so many bytes, the data, and a sum."""
    body = bytes([width + len(data) + 1]) + address.to_bytes(width, "big") + data
    return f"S{kind}{body.hex().upper()}{~sum(body) & 0xFF:02X}\n".encode()


def s_records(parts: Iterable[Part], entry: int) -> Iterator[bytes]:
    yield s_record(0, 0, 2, HEAD)
    for address, data in pieces(parts, S_BYTES):
        yield s_record(3, address, 4, data)
    yield s_record(7, entry, 4, b"")


def hex_record(kind: int, address: int, data: bytes) -> bytes:
    """A line of Intel hex: how many bytes it has, the low half of their address, its kind, the data, and a sum."""
    body = bytes([len(data)]) + address.to_bytes(2, "big") + bytes([kind]) + data
    return f":{body.hex().upper()}{-sum(body) & 0xFF:02X}\n".encode()


def hex_records(parts: Iterable[Part], entry: int) -> Iterator[bytes]:
    """The lines of Intel hex. One of kind 4 stands where the high half of the address is another."""
    high = 0
    for address, data in pieces(parts, HEX_BYTES):
        if address >> 16 != high:
            high = address >> 16
            yield hex_record(4, 0, high.to_bytes(2, "big"))
        yield hex_record(0, address & 0xFFFF, data)
    yield hex_record(5, 0, entry.to_bytes(4, "big"))
    yield hex_record(1, 0, b"")

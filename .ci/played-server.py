#!/usr/bin/env python3
"""Plays a stream server to a client, for .ci/programs: prints the port that it listens on, and answers each frame on each
connection. A stream `missing` is refused, and at `ended` the connection ends."""
import socket

CHUNK = bytes.fromhex(
    "5000000100000001" "0000000000000000" "0000000000000001" "0000000000000001"
    "e58c9792" "00000005" "00000000" "00000000" "00000001" "61"
)


def frame(key, *parts):
    body = key.to_bytes(2, "big") + b"\0\1" + b"".join(parts)
    return len(body).to_bytes(4, "big") + body


def number(value, size):
    return value.to_bytes(size, "big")


def answer(key, body):
    """The frames that answer one, or None where the connection ends."""
    corr = body[4:8]
    ok = number(1, 2)
    if key == 0x11 or key == 0x15 or key == 0x1B:
        return frame(0x8000 + key, corr, ok, number(0, 4))
    if key == 0x12:
        return frame(0x8012, corr, ok, number(1, 4), number(5, 2), b"PLAIN")
    if key == 0x13:
        return frame(0x8013, corr, ok) + frame(0x14, number(1 << 20, 4), number(60, 4))
    if key == 0x0D:
        if b"ended" in body:
            return None
        return frame(0x800D, corr, number(2 if b"missing" in body else 1, 2))
    if key == 0x01:
        return frame(0x8001, corr, ok)
    if key == 0x05:
        return frame(0x8005, corr, ok, number(7, 8))
    if key == 0x07:
        return frame(0x8007, corr, ok) + frame(0x08, b"\0", CHUNK)
    if key == 0x02:
        return frame(0x03, b"\0", number(1, 4), body[9:17])
    return b""


def serve(link):
    held = b""
    while True:
        piece = link.recv(65536)
        if not piece:
            return
        held += piece
        while len(held) >= 4 and len(held) >= 4 + int.from_bytes(held[:4], "big"):
            size = int.from_bytes(held[:4], "big")
            body, held = held[4 : 4 + size], held[4 + size :]
            said = answer(int.from_bytes(body[:2], "big"), body)
            if said is None:
                return
            link.sendall(said)


listener = socket.create_server(("localhost", 0))
print(listener.getsockname()[1], flush=True)
while True:
    with listener.accept()[0] as link:
        try:
            serve(link)
        except OSError:
            pass

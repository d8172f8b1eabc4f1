"""Listings for the tools beside this file: their bytes, how their sections are read, and damage to them.

All of it is written from document 01 and shares nothing with the crates and their proofs.
"""


class Refused(Exception):
    """A refusal, by its number."""


def two_bytes(w):
    return w.to_bytes(2, "little")


def section(ws, count=None):
    return two_bytes(len(ws) if count is None else count) + b"".join(map(two_bytes, ws))


def read_section(data, least, most):
    """A section's numbers and the bytes after it."""
    if len(data) < 2:
        raise Refused(4)
    count = int.from_bytes(data[:2], "little")
    if not least <= count <= most:
        raise Refused(5)
    body, rest = data[2 : 2 + 2 * count], data[2 + 2 * count :]
    if len(body) < 2 * count:
        raise Refused(4)
    return [int.from_bytes(body[i : i + 2], "little") for i in range(0, len(body), 2)], rest


def read_asked(data):
    """The functions and the patterns that a listing asks for, and the bytes after them."""
    functions, rest = read_section(data, 1, 10)
    if not all(1 <= f <= 10 for f in functions):
        raise Refused(1)
    patterns, rest = read_section(rest, 0, 1024)
    return functions, patterns, rest


def damaged(rng, data):
    """One fault: bytes cut off, put in, taken out, changed, or added at the end, or a count that says something else."""
    kind = rng.randrange(7)
    at = rng.randrange(len(data) + 1)
    if kind == 0:
        return data[:at]
    if kind == 1:
        return data[:at] + rng.randbytes(rng.randint(1, 3)) + data[at:]
    if kind == 2:
        return data[:at] + data[at + rng.randint(1, 3) :]
    if kind == 3:
        return data[:at] + rng.randbytes(1) + data[at + 1 :]
    if kind == 4:
        return data + rng.randbytes(rng.choice([1, 2, 3, 40, 2000, 5000]))
    first = 2 + 2 * int.from_bytes(data[:2], "little")
    place = 0 if kind == 5 else min(first, len(data) - 2)
    count = int.from_bytes(data[place : place + 2], "little") + rng.choice([-2, -1, 1, 2, 256, 1024])
    return data[:place] + two_bytes(count % 65536) + data[place + 2 :]

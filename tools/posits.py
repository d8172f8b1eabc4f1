"""The numbers of the posits with one exponent bit, read off their bits, for the tools beside this file.

All of it is written from document 01 and shares nothing with the crates and their proofs.
"""
from fractions import Fraction

NAR, LARGEST = 0x8000, 0x7FFF


def number(pattern, width=16):
    """The number in a pattern; None for NaR."""
    if pattern == 0:
        return Fraction(0)
    if pattern == 1 << (width - 1):
        return None
    if pattern >> (width - 1):
        return -number((1 << width) - pattern, width)
    bits = format(pattern, f"0{width}b")[1:]
    run = len(bits) - len(bits.lstrip(bits[0]))
    regime = run - 1 if bits[0] == "1" else -run
    exponent, fraction = bits[run + 1 :][:1], bits[run + 2 :]
    part = Fraction(int("0" + fraction, 2), 1 << len(fraction))
    return (1 + part) * Fraction(2) ** (2 * regime + int(exponent or "0"))


# DIVIDING[u - 1] stands between the posits u and u + 1, in units of 2^-30, in which every dividing number is whole
DIVIDING = [int(number(2 * u + 1, 17) * 2**30) for u in range(1, LARGEST)]

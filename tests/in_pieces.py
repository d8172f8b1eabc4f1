#!/usr/bin/env python3
"""tests/in_pieces.py ANSWERS COMMAND ..: what the examples that answer a listing in pieces reply, against a model that shares
nothing with them.

ANSWERS is a file of recorded answers, as oracle/record writes it; each COMMAND starts one example. All of them get the same
listings, sound and damaged, with the same sizes of a piece, and must reply what the model says, byte for byte, and tell a refusal
after as many bytes.
"""
import os
import random
import shlex
import subprocess
import sys
import tempfile
from collections import Counter
from pathlib import Path

sys.path.append(str(Path(__file__).resolve().parent.parent / "tools"))
from examples import expect, failing_read  # noqa: E402
from listings import Refused, damaged, read_asked, section  # noqa: E402

SIZES = [1, 2, 3, 16, 100, 4096]
ROUNDS = 150
WORDS = b"failed: the words: one at most, a number from 1 to 4096\n"


def refusal(data):
    """The refusal of a listing with an output that is long enough, 0 for none."""
    try:
        return 6 if read_asked(data)[2] else 0
    except Refused as refused:
        return refused.args[0]


def model(data, size, answer):
    """The reply to a listing that comes in pieces of this size, what is told, and the refusal."""
    came = met = 0
    while met == 0 and came < len(data):
        came = min(came + size, len(data))
        met = refusal(data[:came])
        met = 0 if met == 4 else met
    met = met or refusal(data)
    if met:
        return b"\xFF\xFF" + met.to_bytes(2, "little"), f"refused: {met} after {came} bytes\n".encode(), met
    functions, patterns, _ = read_asked(data)
    return data + section([answer(f, p) for f in functions for p in patterns]), b"", 0


def listings():
    rng = random.Random(7)
    whole = bytes.fromhex("01 00 02 00 02 00 00 40 00 80")
    yield from (whole[:n] for n in range(len(whole) + 1))
    yield whole + b"\7"
    longest = section(range(1, 11)) + section([64 * i + 7 for i in range(1024)])
    yield from (longest, longest[:-1], longest + b"\0", longest + bytes(3000))
    for _ in range(ROUNDS):
        data = section([rng.randint(1, 10) for _ in range(rng.randint(1, 10))]) + section([rng.randrange(65536) for _ in range(rng.randrange(12))])
        yield data if rng.random() < 0.4 else damaged(rng, data)


def run(command, data, words):
    """The listing comes from a file, of which a read gives as many bytes as it asks for."""
    with tempfile.TemporaryFile() as file:
        file.write(data)
        file.seek(0)
        done = subprocess.run([*command, *words], stdin=file, capture_output=True, check=False)
    return done.returncode, done.stdout, done.stderr


def failures(command):
    """A write or a read that fails and bad words are told, and end with status 1."""
    with open("/dev/full", "wb") as full, tempfile.TemporaryFile() as file:
        done = subprocess.run(command, stdin=file, stdout=full, stderr=subprocess.PIPE, check=False)
    told = (done.returncode, done.stderr) == (1, b"refused: 4 after 0 bytes\nfailed: writing the reply\n")
    expect(told, command, "a full disk is not told", done.stderr)
    file, memory = failing_read(bytes.fromhex("01 00 02"))
    done = subprocess.run([*command, "1"], stdin=file, capture_output=True, check=False)
    os.close(file)
    told = (done.returncode, done.stdout, done.stderr) == (1, b"", b"failed: reading the listing\n")
    expect(told and len(memory), command, "a read that fails is not told", done.stderr)
    for words in [["0"], ["4097"], ["x"], ["-1"], ["1x"], [""], ["1", "1"], ["99999999999999999999"]]:
        expect(run(command, b"", words) == (1, b"", WORDS), command, f"bad words are not told: {words}")


def early(command):
    """A refusal is told before more is waited for."""
    with subprocess.Popen([*command, "1"], stdin=subprocess.PIPE, stdout=subprocess.PIPE, stderr=subprocess.PIPE) as example:
        example.stdin.write(bytes(2))
        example.stdin.flush()
        got = example.stdout.read()  # the example ends though its input does not
        told = example.stderr.read()
        example.stdin.close()
    expect((got, told) == (b"\xFF\xFF\5\0", b"refused: 5 after 2 bytes\n"), command, "a refusal is not told at once", got + told)


def main():
    if len(sys.argv) < 3:
        sys.exit("usage: tests/in_pieces.py ANSWERS COMMAND ..")
    tables = Path(sys.argv[1]).read_bytes()
    commands = [shlex.split(word) for word in sys.argv[2:]]

    def answer(function, p):
        at = (function - 1) * 131072 + 2 * p
        return int.from_bytes(tables[at : at + 2], "little")

    given = Counter()
    for data in listings():
        for size in SIZES:
            reply, told, met = model(data, size, answer)
            given[met] += 1
            for command in commands:
                expect(run(command, data, [str(size)]) == (0, reply, told), command, f"{data.hex()} in pieces of {size}")
    for command in commands:
        expect(run(command, b"", []) == (0, b"\xFF\xFF\4\0", b"refused: 4 after 0 bytes\n"), command, "no words and no bytes")
        failures(command)
        early(command)
    refused = ", ".join(f"{count} with {met}" for met, count in sorted(given.items()) if met)
    print(f"{sum(given.values())} listings in pieces of {', '.join(map(str, SIZES))} bytes: {given[0]} answered; refused: {refused}")
    print(f"examples that reply what the model says, byte for byte, and tell a refusal after as many bytes: {len(commands)}")
    print("failing writes, a failing read and bad words are told; a refusal is told before more is waited for")


main()

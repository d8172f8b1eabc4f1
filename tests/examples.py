#!/usr/bin/env python3
"""tests/examples.py ANSWERS COMMAND ..: what the accuracy examples print, against a model that shares nothing with them.

ANSWERS is a file of recorded answers, as oracle/record writes it; each COMMAND starts one example. All of them get the same
inputs and must print what the model says, byte for byte, so they also print the same as each other.
"""
import ctypes
import mmap
import os
import random
import re
import shlex
import subprocess
import sys
from collections import Counter
from fractions import Fraction
from pathlib import Path

EXAMPLE = Path(__file__).resolve().parent.parent / "bindings" / "example"
SEEDS = range(1, 301)


def metres(p):
    """The number of the posit p, above zero."""
    bits = f"{p:016b}"[1:]
    run = len(bits) - len(bits.lstrip(bits[0]))
    rest = bits[run + 1 :].ljust(16, "0")
    power = 2 * (run - 1 if bits[0] == "1" else -run) + int(rest[0])
    return (1 + Fraction(int(rest[1:], 2), 1 << 15)) * Fraction(2) ** power


def shown(data, exp2):
    """What is to be printed, and the counts of the last line."""
    lines = data.split(b"\n")
    if lines[-1] == b"":
        lines.pop()
    out, count, since = [], Counter(), None
    for n, line in enumerate(lines, 1):
        line = line[:-1] if line.endswith(b"\r") else line
        is_reading = re.fullmatch(rb"[0-9A-Fa-f]{4}", line)
        answer = exp2(int(line, 16)) if is_reading else None
        if is_reading and answer != 0x8000:
            since = None
            count["good"] += 1
            out.append(f"reading {n}: accuracy {float(metres(answer)):.9f} m\n")
        else:
            since = since or n
            bad = "NaR" if is_reading else "malformed"
            count[bad] += 1
            out.append(f"reading {n}: {bad}, accuracy unknown since reading {since}\n")
    out.append(f"{len(lines)} readings: {count['good']} good, {count['malformed']} malformed, {count['NaR']} NaR\n")
    return "".join(out).encode(), count


def fixed_inputs():
    every = [f"{p:04X}" for p in range(65536)]
    yield "all 65,536 patterns", "".join(p + "\n" for p in every).encode()
    yield "all patterns in small letters, with carriage returns", "".join(p.lower() + "\r\n" for p in every).encode()
    yield "2,000 lines", b"4000\n" * 2000
    for words in ["4000 12345 5000", "-1 4000", "4000 hello 5000"]:
        yield f"{words} on one line", f"{words}\n".encode()
        yield f"{words}, a word to a line", "".join(word + "\n" for word in words.split()).encode()
    good = b"4000\n"
    for name, line in {
        "nothing": b"",
        "a blank line": b"\n",
        "blanks around": b" 4000\n4000 \n\t4000\n",
        "a sign or a prefix": b"+400\n-400\n0x40\n4_00\n",
        "carriage returns": b"4000\r\n4000\r\r\n\r4000\n40\r00\n\r\n4000\r4000\r\n4000\r",
        "NUL bytes": b"4000\0\n\x004000\n40\x0000\n\0\n",
        "bytes that are no UTF-8": b"\xff\xfe\n4000\xc3\n\x80\n",
        "digits that are not ASCII": "４０００\n٤٠٠٠\n".encode(),
        "a line of 100,000 digits": b"4" * 100000 + b"\n",
        "a line of 100,000 bytes after a reading": b"4000" + b" " * 100000 + b"\n",
        "a row of NaR": b"8000\n" * 5,
    }.items():
        yield name, line
        yield name + ", between good ones", good + line + good + line + b"E000"
    yield "a megabyte without a line's end", bytes(range(11, 256)) * 4300


def random_input(rng):
    """Readings, good and damaged, and now and then plain noise."""
    if rng.random() < 0.1:
        return rng.randbytes(rng.randrange(400))
    out = []
    for _ in range(rng.randrange(60)):
        line = bytearray(f"{rng.choice([0x8000, 0x4000, 0, rng.randrange(65536)]):04{rng.choice('xX')}}".encode())
        for _ in range(rng.choice([0, 0, 0, 1, 1, 2])):
            at = rng.randrange(len(line) + 1)
            line[at : at + rng.randrange(2)] = rng.choice([b"", b" ", b"\r", b"\0", b"0", b"g", rng.randbytes(2)])
        out.append(bytes(line) + rng.choice([b"\n", b"\n", b"\n", b"\r\n", b"\n\n"]))
    return b"".join(out)[: None if rng.random() < 0.7 else -1]


def run(command, data):
    done = subprocess.run(command, input=data, capture_output=True, check=False)
    return done.returncode, done.stdout, done.stderr


def expect(holds, command, what, got=b""):
    if not holds:
        sys.exit(f"examples: {shlex.join(command)}: {what}: {got[:400]!r}")


def failing_read(data):
    """A file that gives these bytes and then fails: this process's memory, up to a page that is not there."""
    page = mmap.PAGESIZE
    memory = mmap.mmap(-1, 2 * page)
    at = ctypes.addressof(ctypes.c_char.from_buffer(memory))
    memory[page - len(data) : page] = data
    if ctypes.CDLL(None).munmap(ctypes.c_void_p(at + page), ctypes.c_size_t(page)) != 0:
        sys.exit("examples: no page to take away")
    file = os.open("/proc/self/mem", os.O_RDONLY)
    os.lseek(file, at + page - len(data), os.SEEK_SET)
    return file, memory


def failures(command):
    """A read or a write that fails is told, and ends with status 1."""
    with open("/dev/full", "wb") as full:
        done = subprocess.run(command, input=b"4000\n", stdout=full, stderr=subprocess.PIPE, check=False)
    told = (done.returncode, done.stderr) == (1, b"failed: writing the display\n")
    expect(told, command, "a full disk is not told", done.stderr)

    end, gone = os.pipe()
    os.close(end)
    done = subprocess.run(command, input=b"4000\n", stdout=gone, stderr=subprocess.PIPE, check=False)
    os.close(gone)
    told = (done.returncode, done.stderr) == (1, b"failed: writing the display\n")
    expect(told, command, "a display that went away is not told", done.stderr)

    file, memory = failing_read(b"5000\n4000")
    done = subprocess.run(command, stdin=file, capture_output=True, check=False)
    os.close(file)
    told = (done.returncode, done.stderr) == (1, b"failed: reading the readings\n")
    expect(told and len(memory), command, "a read that fails is not told", done.stderr)
    right = b"reading 1: accuracy 4.000000000 m\nreading 2: malformed, accuracy unknown since reading 2\n"
    expect(done.stdout == right, command, "a line that a failed read cuts is no reading", done.stdout)


def live(command, exp2):
    """Each reading is shown before the next is sent."""
    lines = [b"4000\n", b"junk\n", b"8000\n", b"5000\n"]
    right = shown(b"".join(lines), exp2)[0].splitlines(keepends=True)
    with subprocess.Popen(command, stdin=subprocess.PIPE, stdout=subprocess.PIPE) as example:
        for line, wanted in zip(lines, right):
            example.stdin.write(line)
            example.stdin.flush()
            got = example.stdout.readline()
            expect(got == wanted, command, "a reading is not shown at once", got)
        example.stdin.close()
        got = example.stdout.read()
        expect(got == right[-1], command, "the last line", got)


def main():
    if len(sys.argv) < 3:
        sys.exit("usage: tests/examples.py ANSWERS COMMAND ..")
    tables = Path(sys.argv[1]).read_bytes()
    commands = [shlex.split(word) for word in sys.argv[2:]]

    def exp2(p):
        return int.from_bytes(tables[131072 + 2 * p : 131074 + 2 * p], "little")

    stored = [(name, (EXAMPLE / name).read_bytes()) for name in ("clean", "damaged")]
    for name, data in stored:
        if shown(data, exp2)[0] != (EXAMPLE / f"{name}.shown").read_bytes():
            sys.exit(f"examples: the model does not print bindings/example/{name}.shown")
    fixed = stored + list(fixed_inputs())
    cases = fixed + [(f"seed {seed}", random_input(random.Random(seed))) for seed in SEEDS]
    total = Counter()
    for name, data in cases:
        right, count = shown(data, exp2)
        total += count
        for command in commands:
            status, out, told = run(command, data)
            expect(status == 0 and told == b"", command, f"{name}: status {status}", told)
            expect(out == right, command, f"{name}: printed something else", out)
    for command in commands:
        failures(command)
        live(command, exp2)
    print(f"{len(fixed)} inputs and {len(SEEDS)} random ones (seeds {SEEDS[0]} to {SEEDS[-1]}): {total['good']} good, "
          f"{total['malformed']} malformed, {total['NaR']} NaR")
    print(f"examples that print what the model says, byte for byte: {len(commands)}")
    print("failing writes and a failing read are told; every reading is shown before the next is sent")


if __name__ == "__main__":
    main()

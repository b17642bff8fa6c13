#!/usr/bin/env python3
"""Writes a netlist whose names all fall into one place of a table that is hashed with a fixed start.

    tools/colliding_names.py COUNT BITS [FRONT]              the last BITS bits of each name's hash are 0
    tools/colliding_names.py COUNT BITS [FRONT] --harmless   the control: names of the same size, at random

COUNT names of FRONT + 8 bytes, the first FRONT bytes the same in all, three on a line. A table of COUNT names
has a place for some nine of them, so that BITS = log2(COUNT / 9) is enough to make reading them take the square
of COUNT where the author of a netlist knows how names are hashed. The program draws the start of its hashes from
the system (crate `table_keys`): reading both files must take it about the same time. To measure:

    tools/colliding_names.py 99999 14 > hostile.sim; tools/colliding_names.py 99999 14 --harmless > harmless.sim
    time ./cosmos check hostile.sim; time ./cosmos check harmless.sim

The hash is that of the toolchain's `IndexMap` with no keys given, `FoldHasher`: the length and then each byte is
joined to the state by xor and multiplied, and both halves of the product are joined; a place is told by the low
bits of the hash joined with its upper half. All last bytes are tried at once, as lanes of one large number;
99,999 names at 14 bits take some five minutes of one processor.
"""
import itertools
import multiprocessing
import random
import sys

START, MULTIPLIER = 0x243F6A8885A308D3, 0x9E3779B97F4A7C15
WORD = 2**64 - 1
LANE = 128
LETTERS = bytes(range(0x21, 0x7F))
ONE = sum(1 << LANE * lane for lane in range(len(LETTERS)))
LAST = sum(byte * 0x010101 << LANE * lane for lane, byte in enumerate(LETTERS))


def after_write(state, value, size):
    """The state after a write of at most eight bytes that are read as this value."""
    product = (state ^ value) * (MULTIPLIER ^ 2 * size)
    return (product ^ product >> 64) & WORD


def state_after(state, text):
    """The state after the bytes of a name."""
    for byte in text:
        state = after_write(state, byte * 0x010101, 1)
    return state


def last_letters(state, bits):
    """The last bytes after which the low bits of the place are 0."""
    product = (state * ONE ^ LAST) * (MULTIPLIER ^ 2)
    low = ONE * (2**bits - 1)
    place = (product ^ product >> 32 ^ product >> 64 ^ product >> 96) & low
    others = (place + low >> bits & ONE).to_bytes(len(LETTERS) * LANE // 8, "little")[:: LANE // 8]
    return [byte for byte, other in zip(LETTERS, others) if not other] if 0 in others else []


def names_from(task):
    """The names with this beginning and three bytes more whose places collide."""
    bits, begin = task
    state = state_after(after_write(START, len(begin) + 3, 8), begin)
    return [
        begin + bytes(tail) + bytes([last])
        for tail in itertools.product(LETTERS, repeat=2)
        for last in last_letters(state_after(state, tail), bits)
    ]


def colliding(bits, front):
    """All names of eight bytes more than the front whose places collide."""
    with multiprocessing.Pool() as pool:
        for head in itertools.product(LETTERS, repeat=4):
            tasks = [(bits, front + bytes(head + (byte,))) for byte in LETTERS]
            yield from itertools.chain(*pool.map(names_from, tasks))


def harmless(front):
    """Names of eight bytes more than the front, at random."""
    chance = random.Random(1)
    while True:
        yield front + bytes(chance.choices(LETTERS, k=8))


def main():
    words = [word for word in sys.argv[1:] if word != "--harmless"]
    count, bits, length = (int(word) for word in (words + ["0"])[:3])
    names = harmless(b"x" * length) if "--harmless" in sys.argv else colliding(bits, b"x" * length)
    for _ in range((count + 2) // 3):
        sys.stdout.buffer.write(b"n " + b" ".join(itertools.islice(names, 3)) + b"\n")


if __name__ == "__main__":
    main()

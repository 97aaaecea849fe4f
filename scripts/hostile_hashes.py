"""Texts of one hash: the kit's maps hash by folded products from a state that is known, so eight bytes can be chosen that make the
product zero, whatever the eight bytes behind them are (core/src/hash/fold.rt of the kit)."""
import random
import struct

MASK = (1 << 64) - 1
MULTIPLIER = 0x9E3779B97F4A7C15
START = 0x243F6A8885A308D3
LETTERS = b"abcdefghijklmnopqrstuvwxyz0123456789"
NAME_BYTES = frozenset(b"ABCDEFGHIJKLMNOPQRSTUVWXYZabcdefghijklmnopqrstuvwxyz0123456789_$")


def folded(a, b):
    product = a * b
    return (product & MASK) ^ (product >> 64)


def word(text, at):
    return struct.unpack_from("<Q", text, at)[0]


def after_number(number):
    """The state behind a number of four bytes, with which a map begins whose keys are pairs of a number and a text."""
    return folded(START ^ (number | number << 32), MULTIPLIER ^ 8)


def of_one_hash(begin, many, state=START):
    """That many texts which begin so and have one hash, and as many of the same lengths which have not."""
    dice = random.Random(1)
    length = (len(begin) + 8 + 15) // 16 * 16 + 16
    while True:
        head = begin + bytes(dice.choice(LETTERS) for _ in range(length - 16 - len(begin)))
        now = (state + length) & MASK
        for at in range(0, length - 16, 16):
            now = folded(word(head, at) ^ now, word(head, at + 8) ^ MULTIPLIER)
        key = struct.pack("<Q", now)
        if NAME_BYTES.issuperset(key):
            break
    ends = set()
    while len(ends) < many:
        ends.add(bytes(dice.choice(LETTERS) for _ in range(8)))
    ends = sorted(ends)
    return [head + key + end for end in ends], [head[:-8] + end + key + b"aaaaaaaa" for end in ends]

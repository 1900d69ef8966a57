#!/usr/bin/env python3
"""Prints random texts, one a line in hexadecimal: texts.py SEED COUNT."""
import random
import sys

WORDS = [
    b"MOVE", b"TO", b"A", b"B", b"PIC", b"pic", b"PICTURE", b"IS", b"is", b"X(10)", b"S9(4)V99", b"Z9.99", b"5", b"5A", b"5-3", b"A-",
    b"-5", b"+5", b".5", b"1.5", b"1.5.6", b"1.5A", b"-.5", b"==", b"=", b"<", b"<=", b">=", b">", b"(", b")", b":", b"*", b"/", b"+", b"-",
    b".", b",", b";", b", ", b"; ", b". ", b" ", b"  ", b'"', b"'", b'""', b"''", b'"AB"', b"'IT''S'", b'"A', b"'B", b"AUTHOR", b"AUTHOR.",
    b"DATE-WRITTEN", b"INSTALLATION", b"SECURITY", b"A" * 30, b"A" * 31, b"1" * 18, b"1" * 19, b"X" * 31, b"&", b"\x01'", b"\x7f'", b"\xff'", b"'" + b"A" * 55 + b"'", b'"' + b"A" * 57,
]


def cells(rng, continues):
    indent = b" " * rng.choice([0, 0, 3, 4, 4, 4, 5, 10])
    parts = []
    if continues and rng.random() < 0.95:
        indent = b" " * rng.choice([4, 5, 10])
        parts.append(rng.choice([b"", b"", b'"', b"'"]))
    for _ in range(rng.choice([0, 1, 1, 2, 3, 5, 8])):
        parts.append(rng.choice(WORDS))
        if rng.random() < 0.5:
            parts.append(b" ")
    text = indent + b"".join(parts)
    if rng.random() < 0.15:
        text = text.ljust(65) + rng.choice([b"", b"X", b"\xff\x00", b'"'])
    return text


def line(rng, is_first):
    if rng.random() < 0.01:
        return b"000100 " + b" " * rng.choice([993, 994])
    sequence = rng.choice([b"000100", b"      ", b"\x00\xff'\"AB"])
    indicator = rng.choice([b" "] * 10 + [b"-"] * 12 + [b"*", b"/", b"D", b"d"] * 2 + [b"X", b"\xff"])
    if is_first and rng.random() < 0.95:
        indicator = b" "
    whole = sequence + indicator + cells(rng, indicator == b"-")
    return whole[:rng.choice([3, 6, 7])] if rng.random() < 0.03 else whole


def main():
    rng = random.Random(int(sys.argv[1]))
    for _ in range(int(sys.argv[2])):
        rows = [line(rng, i == 0) + rng.choice([b"\n", b"\n", b"\n", b"\r\n"]) for i in range(rng.choice([1, 1, 2, 2, 3, 4, 6]))]
        text = b"".join(rows)
        if rng.random() < 0.2:
            text = text.rstrip(b"\n")
        print(text.hex())


main()

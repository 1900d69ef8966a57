"""Writes a program for the benchmark of labels: texts.py FILE KIND AREAS STATEMENTS [SEED].

The program has AREAS records of 20,000 bytes. Each is moved to the next as a group, so that the labels of the first
item reach all of them; and there are so many further statements between items that are chosen at random. KIND says
what the records are tables of:
    years   years of two digits, which the seed reaches: each byte bears a label, and no two neighbours the same
    plain   signed numbers: each byte is plain, and all of them together are one stretch
    mixed   rows of a date, a packed amount, a text and a signed count, a few tables of 30,000 occurrences, and dates
            outside the tables
"""
import random
import sys

SIZE = 20000


def years(k):
    yield f"       01  REC-{k}."
    yield f"           05  D-{k} PIC 9(2) OCCURS {SIZE // 2}."


def plain(k):
    yield f"       01  REC-{k}."
    yield f"           05  D-{k} PIC S9(2) OCCURS {SIZE // 2}."


def mixed(k):
    if k % 20 == 19:
        yield f"       01  REC-{k}."
        yield f"           05  D-{k} PIC 9(6)."
        yield f"           05  N-{k} PIC S9(2) OCCURS 30000."
        return
    yield f"       01  REC-{k}."
    yield f"           05  ROW-{k} OCCURS {SIZE // 40}."
    yield f"               10  D-{k} PIC 9(6)."
    yield f"               10  A-{k} PIC S9(7)V99 COMP-3."
    yield f"               10  T-{k} PIC X(25)."
    yield f"               10  C-{k} PIC S9(4)."


def item(k, kind):
    alone = kind == "mixed" and k % 20 == 19
    return f"D-{k}" if alone else f"D-{k} (1)"


def statement(choose, areas, kind):
    a, b = item(choose.randrange(areas), kind), item(choose.randrange(areas), kind)
    if choose.randrange(4) == 0:
        yield f"           IF {a} < {b} CONTINUE."
    else:
        yield f"           MOVE {a} TO {b}."


def main():
    file, kind, areas, statements = sys.argv[1], sys.argv[2], int(sys.argv[3]), int(sys.argv[4])
    choose = random.Random(int(sys.argv[5]) if len(sys.argv) > 5 else 1)
    head = ["IDENTIFICATION DIVISION.", "PROGRAM-ID. LABELS.", "DATA DIVISION.", "WORKING-STORAGE SECTION."]
    lines = ["       " + line for line in head]
    for k in range(areas):
        lines += {"years": years, "plain": plain, "mixed": mixed}[kind](k)
    lines.append("       PROCEDURE DIVISION.")
    for k in range(1, areas):
        if kind != "mixed" or k % 20 not in (0, 19):
            lines.append(f"           MOVE REC-{k - 1} TO REC-{k}.")
    for _ in range(statements):
        lines += statement(choose, areas, kind)
    lines.append("           STOP RUN.")
    with open(file, "w") as out:
        out.write("\n".join(lines) + "\n")


main()

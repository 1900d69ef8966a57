"""Writes programs for the benchmark of the reader into a folder: texts.py FOLDER COUNT BYTES [SEED].

Each program has tables, redefinitions, packed items and condition-names, and a procedure division of conditions,
arithmetic, EVALUATE, PERFORM and MOVE statements, and is as long as BYTES says, up to a paragraph."""
import random
import sys


def entries(number):
    for i in range(number):
        yield f"       01  REC-{i}."
        yield f"           05  NAME-{i} PIC X(20) VALUE SPACES."
        yield f"           05  DATE-{i} PIC 9(6)."
        yield f"           05  DATE-PARTS-{i} REDEFINES DATE-{i}."
        yield f"               10  YEAR-{i} PIC 9(2)."
        yield f"               10  DAY-{i} PIC 9(2) OCCURS 2 TIMES."
        yield f"           05  AMOUNT-{i} PIC S9(7)V99 COMP-3."
        yield f"           05  STATE-{i} PIC X VALUE \"A\"."
        yield f"               88  IS-OPEN-{i} VALUE \"A\" \"B\"."


def paragraph(choose, i, items):
    r = lambda: choose.randrange(items)
    yield f"       PARA-{i}."
    yield f"           MOVE DATE-{r()} TO DATE-{r()} DATE-{r()}."
    yield f"           IF DATE-{r()} < 800101 AND IS-OPEN-{r()} OR AMOUNT-{r()} > 10.5"
    yield f"               ADD 1 TO AMOUNT-{r()} ON SIZE ERROR CONTINUE END-ADD"
    yield "           ELSE"
    yield f"               COMPUTE AMOUNT-{r()} = (AMOUNT-{r()} + 3) * AMOUNT-{r()} / 2"
    yield f"               MOVE \"SOME TEXT\" TO NAME-{r()} NAME-{r()}"
    yield "           END-IF."
    yield f"           EVALUATE YEAR-{r()}"
    yield f"               WHEN 58 WHEN 59 DISPLAY NAME-{r()} DATE-{r()}"
    yield f"               WHEN OTHER SUBTRACT 1 FROM DAY-{r()} (1)"
    yield "           END-EVALUATE."
    # a paragraph that stands before or here
    yield f"           PERFORM PARA-{choose.randrange(i + 1)} UNTIL STATE-{r()} = \"Z\" OR \"Y\"."


def program(choose, name, size):
    items = max(4, size // 2000)
    head = ["IDENTIFICATION DIVISION.", f"PROGRAM-ID. {name}.", "DATA DIVISION.", "WORKING-STORAGE SECTION."]
    lines = ["       " + line for line in head] + list(entries(items)) + ["       PROCEDURE DIVISION."]
    written = sum(len(line) + 1 for line in lines)
    i = 0
    while written < size - 800:
        more = list(paragraph(choose, i, items))
        written += sum(len(line) + 1 for line in more)
        lines += more
        i += 1
    lines.append("           STOP RUN.")
    return "\n".join(lines) + "\n"


def main():
    folder, count, size = sys.argv[1], int(sys.argv[2]), int(sys.argv[3])
    choose = random.Random(int(sys.argv[4]) if len(sys.argv) > 4 else 1)
    for k in range(count):
        with open(f"{folder}/PROG{k}.cbl", "w") as file:
            file.write(program(choose, f"PROG{k}", size))


main()

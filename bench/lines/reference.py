#!/usr/bin/env python3
"""Reads texts, one a line in hexadecimal, by the rules of docs/LINES.md, and prints their words or first fault.

It shares nothing with the crate: lines are joined as strings beside a list of places, and words are found by
regular expressions.
"""
import re
import sys

COMMENT_WORDS = {b"AUTHOR", b"INSTALLATION", b"DATE-WRITTEN", b"DATE-COMPILED", b"SECURITY"}
KINDS = ["BadByte", "LineLong", "OpenLiteral", "BadContinuation", "WordLong"]
RUN = re.compile(rb"[A-Za-z0-9-]*")
NAME = re.compile(rb"(?=[A-Za-z0-9])(?=[0-9-]*[A-Za-z])[A-Za-z0-9-]+")
NUMBER = re.compile(rb"[0-9]+(?:\.[0-9]+)?")
# behind a blank or an opening parenthesis: a point and digits, or a sign directly before a number that begins no name
SIGNED = re.compile(rb"[+-](?:(?![0-9][0-9-]*[A-Za-z])[0-9]+(?:\.[0-9]+)?|\.[0-9]+)|\.[0-9]+")
MARK = re.compile(rb"==|<=|>=|[.():=<>+*/-]")
PICTURE = re.compile(rb"(?:(?! |==|\. |\.\Z).)+", re.S)
LITERAL = {q: re.compile(b"%s(?:[^%s]|%s%s)*%s(?!%s)" % ((q,) * 6)) for q in (b'"', b"'")}
BAD_IN_PICTURE = re.compile(rb"[^\x20-\x7e]")
BAD_IN_LITERAL = re.compile(rb"[\x00-\x1f]")


class Text:
    """A joined text: its bytes, the place of each, and what is expected at its front."""

    def __init__(self, expected):
        self.expected, self.bytes, self.places = expected, b"", []
        self.line = self.column = 0

    def add(self, line, column, data):
        self.bytes += data
        self.places += [(line, column + i) for i in range(len(data))]

    def read(self):
        """The pieces (kind, start, end), what is expected behind them, and the mark of an open literal."""
        at, expected, pieces, text = 0, self.expected, [], self.bytes
        while at < len(text):
            here = text[at:at + 1]
            rest = text[at:]
            before = text[at - 1:at] if at else b" "
            if here == b" ":
                at += 1
                continue
            if expected == "IS" and RUN.match(rest).group().upper() == b"IS":
                pieces.append(("NA", at, at + 2))
                at, expected = at + 2, "PICTURE"
                continue
            if expected and (found := PICTURE.match(rest)):
                pieces.append(("PI", at, at + found.end()))
                at, expected = at + found.end(), None
                continue
            expected = None
            if here in LITERAL:
                found = LITERAL[here].match(rest)
                if not found:
                    pieces.append(("OPEN", at, len(text)))
                    return pieces, None, here
                pieces.append(("LI", at, at + found.end()))
                at += found.end()
            elif found := NAME.match(rest):
                pieces.append(("NA", at, at + found.end()))
                at += found.end()
                if found.group().upper() in (b"PIC", b"PICTURE"):
                    expected = "IS"
            elif found := NUMBER.match(rest) or (SIGNED.match(rest) if before in b" (" else None):
                pieces.append(("NU", at, at + found.end()))
                at += found.end()
            elif here in b",;" and text[at + 1:at + 2] in (b"", b" "):
                at += 1
            elif found := MARK.match(rest):
                pieces.append(("MA", at, at + found.end()))
                at += found.end()
            else:
                pieces.append(("BAD", at, at + 1))
                at += 1
        return pieces, expected, None


def content(literal):
    mark = literal[:1]
    return literal[1:-1].replace(mark + mark, mark)


def length(kind, data):
    if kind == "NU":
        return len(re.sub(rb"[^0-9]", b"", data)) > 18
    if kind == "LI":
        return len(content(data)) > 160
    if kind == "OPEN":
        return len(data[1:].replace(data[:1] * 2, data[:1])) > 160
    return kind in ("NA", "PI") and len(data) > 30


def finish(text, words, faults, is_cut):
    pieces, expected, _ = text.read()
    for kind, start, end in pieces:
        data, place = text.bytes[start:end], text.places[start]
        if kind == "BAD":
            faults.append((*place, 0))
        if kind in ("LI", "OPEN", "PI"):
            pattern = BAD_IN_PICTURE if kind == "PI" else BAD_IN_LITERAL
            faults.extend((*text.places[start + m.start()], 0) for m in pattern.finditer(data))
        if kind == "OPEN" and not is_cut:
            faults.append((*place, 2))
        if length(kind, data):
            faults.append((*place, 4))
        if kind in ("NA", "NU", "LI", "PI", "MA"):
            words.append((kind, content(data) if kind == "LI" else data.upper(), place))
    return expected


def read(data):
    words, faults = [], []
    lines = data.split(b"\n")
    if lines[-1] == b"":
        lines.pop()
    text, is_begun, paragraph = Text(None), False, False
    for number, line in enumerate(lines, 1):
        if len(line) > 1000:
            faults.append((number, 1, 1))
        body = line[:-1] if line.endswith(b"\r") else line
        indicator = body[6:7] or b" "
        cells = body[7:72].rstrip(b" ")
        skip = len(cells) - len(cells.lstrip(b" "))
        in_area_a = bool(cells) and skip < 4
        if indicator in (b"*", b"/", b"D", b"d"):
            continue
        if paragraph and not in_area_a:
            continue
        paragraph = False
        if indicator == b"-":
            mark = text.read()[2]
            bad = not is_begun or in_area_a or (mark is not None and cells[skip:skip + 1] != mark)
            if bad:
                text = Text(finish(text, words, faults, True))
                is_begun = False
                faults.append((number, 7, 3))
                continue
            if mark is not None:
                text.add(text.line, text.column, b" " * (73 - text.column))
                skip += 1
            text.add(number, 8 + skip, cells[skip:])
            text.line, text.column = number, 8 + len(cells)
            continue
        if indicator != b" ":
            faults.append((number, 7, 0))
        if in_area_a and RUN.match(cells[skip:]).group().upper() in COMMENT_WORDS:
            paragraph = True
            continue
        text = Text(finish(text, words, faults, False))
        is_begun = True
        text.add(number, 8, cells)
        text.line, text.column = number, 8 + len(cells)
    finish(text, words, faults, False)
    if faults:
        line, column, kind = min(faults)
        return f"{KINDS[kind]} {line}:{column}"
    return "".join(f"{kind}{data.hex()}@{line}:{column} " for kind, data, (line, column) in words) + "ok"


for row in sys.stdin:
    print(read(bytes.fromhex(row.strip())))

#!/usr/bin/env python3
"""Writes a sheet file from a table of its numbers.

  tools/sheet.py TABLE SHEET

A line of the table is one of these, and what follows a '#' is a comment:

  note TEXT                    the note; \\n stands for a line feed
  head WIDTH KIND SHAPE R S    the head, by its numbers (65535: an open size)
  row CODE LINE FIELD=N ...    a row; fields that are not named are 0
"""
import struct
import sys


def read(path):
    note, head, rows = b"", None, []
    for line in open(path, encoding="utf-8"):
        word, _, rest = line.split("#")[0].strip().partition(" ")
        if word == "note":
            note += rest.replace("\\n", "\n").encode("utf-8")
        elif word == "head":
            head = [int(x) for x in rest.split()]
        elif word == "row":
            code, at, *fields = rest.split()
            named = dict(f.split("=") for f in fields)
            rows.append([int(code), int(at)] + [int(named.pop(k, 0)) for k in "abcdrsn"])
            if named:
                sys.exit(f"unknown fields {sorted(named)}: {line.strip()}")
        elif word:
            sys.exit(f"unknown line: {line.strip()}")
    return note, head, rows


def encode(note, head, rows):
    body = b"".join(struct.pack("<8Hi", *row) for row in rows)
    return note + body + struct.pack("<I8H", len(note), len(rows), *head, 1, 0x5047)


if __name__ == "__main__":
    if len(sys.argv) != 3:
        sys.exit(__doc__)
    sheet = encode(*read(sys.argv[1]))
    with open(sys.argv[2], "wb") as out:
        out.write(sheet)

#!/usr/bin/env python3
"""Reads a page from standard input and writes what the program `read_page` writes, by docs/PAGE.md.

    python3 tests/read_page.py < page

It ends with status 0 where the page opens and 1 where it is refused.
"""
import sys

from sheet import Sheet


def answer(page):
    """What is written, and the exit status."""
    sheet = Sheet()
    refusal = sheet.load(page, "walk")
    if refusal is None:
        return "".join(line + "\n" for line in sheet.lines()), 0
    return " ".join(map(str, ("refused",) + refusal)) + "\n", 1


if __name__ == "__main__":
    written, status = answer(sys.stdin.buffer.read())
    sys.stdout.write(written)
    sys.exit(status)

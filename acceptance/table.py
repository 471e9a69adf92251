#!/usr/bin/env python3
"""Prints the table of CABAC's initial pairs (9.3.1.1) as the text that --table takes, out of the data of installed libraries.

    table.py > table.txt               of libavcodec, libx264 and libopenh264, those of them that the linker knows
    table.py LIBRARY .. > table.txt    of these files

All libraries that are read must agree on each pair that the standard has. Which of them hold the table is said on standard
error. Without a table, or where two differ, nothing is printed and the status is 1. Where the standard has no pair, the text
has what the library has there.
"""
import os
import subprocess
import sys

CONTEXTS = 460
LIBRARIES = ("libavcodec.so", "libx264.so", "libopenh264.so")
# with these contexts 0 to 2 start in every column, and contexts 3 to 5 too
FIRST = [(20, -15), (2, 54), (3, 74)]
# the contexts of elements that I slices don't have (table 9-34)
NOT_IN_I = range(11, 60)
# contexts of elements that all slices have and that start alike in every column
ALIKE = [*range(11), *range(60, 70)]
# bytes from one column to the next, where an array has 1,024 pairs for each
STRIDE = 2 * 1024


def is_used(context, column):
    """Returns whether the standard has a pair there. 276 is the context of end_of_slice_flag, which has none."""
    return context != 276 and not (column == 0 and context in NOT_IN_I)


def bytes_of(pairs):
    return bytes(number & 255 for pair in pairs for number in pair)


def places_of(pairs, data):
    """Yields where these pairs stand one behind another."""
    part = bytes_of(pairs)
    at = data.find(part)
    while at >= 0:
        yield at
        at = data.find(part, at + 1)


def column_at(data, start, step):
    """Returns a pair for each context, the first one at this place and each next one so many bytes further on."""
    numbers = memoryview(data[start : start + step * CONTEXTS]).cast("b")
    return [(numbers[at], numbers[at + 1]) for at in range(0, len(numbers) - 1, step)]


def is_of_i(column):
    return len({column[context] for context in NOT_IN_I}) == 1


def column_by_column(data):
    """Yields the tables whose columns lie each by itself: those of P and B slices in a row, that of I slices anywhere."""
    columns = {at: column_at(data, at, 2) for at in places_of(FIRST * 2, data) if at + 2 * CONTEXTS <= len(data)}
    first = [it for it in columns.values() if is_of_i(it)]
    for at in columns:
        others = [columns.get(at + turn * STRIDE) for turn in range(3)]
        if None not in others and not any(map(is_of_i, others)):
            yield from ([it, *others] for it in first)


def context_by_context(data):
    """Yields the tables that have the four columns of a context side by side."""
    rows = [pair for pair in FIRST for _ in range(4)]
    for at in places_of(rows * 2, data):
        if at + 8 * CONTEXTS <= len(data):
            yield [column_at(data, at + 2 * column, 8) for column in range(4)]


def is_table(columns):
    """Returns whether these columns may be the table: a few things that hold of it, and that other data break."""
    alike = all(len({column[context] for column in columns}) == 1 for context in ALIKE)
    used = [[it for context, it in enumerate(column) if is_used(context, at)] for at, column in enumerate(columns)]
    # it has the pair (0, 0), but not twice in a row
    filled = all(pairs != ((0, 0), (0, 0)) for column in used for pairs in zip(column, column[1:]))
    return alike and filled and len(set(map(tuple, columns))) == 4


def libraries():
    search = {**os.environ, "PATH": os.environ.get("PATH", "") + ":/usr/sbin:/sbin"}
    known = subprocess.run(["ldconfig", "-p"], capture_output=True, text=True, check=True, env=search).stdout
    paths = [line.split("=> ")[1] for line in known.splitlines() if "=> " in line]
    return sorted({os.path.realpath(it) for it in paths if os.path.basename(it).startswith(LIBRARIES)})


def tables(paths):
    """Yields each table with the name of its library."""
    for path in paths:
        name = os.path.basename(path)
        with open(path, "rb") as file:
            data = file.read()
        found = [it for it in (*column_by_column(data), *context_by_context(data)) if is_table(it)]
        print(f"{name}: {'has the table' if found else 'no table'}", file=sys.stderr)
        yield from ((name, it) for it in found)


def differences(one, other):
    places = ((context, column) for context in range(CONTEXTS) for column in range(4) if is_used(context, column))
    return [(context, column) for context, column in places if one[column][context] != other[column][context]]


def main(words):
    found = list(tables(words or libraries()))
    if not found:
        return "no table"
    (name, table), *others = found
    for other_name, other in others:
        if places := differences(table, other):
            return f"{name} and {other_name} differ at contexts and columns {places}"
    for context in range(CONTEXTS):
        print(*(number for column in table for number in column[context]))
    return 0


if __name__ == "__main__":
    sys.exit(main(sys.argv[1:]))

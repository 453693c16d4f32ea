"""Makes crates/unicode_test/stdin: the Unicode properties that the program unicode_test compares with.

The source is the Unicode Character Database 15.0.0, as Debian's package unicode-data installs it:

    python3 tools/unicode_table.py /usr/share/unicode > crates/unicode_test/stdin

All code points 0 to 10FFFF are listed as runs of equal class, one run to a line: the first code
point of the run and its class, both in hexadecimal. A run lasts until the next one starts, and
the last one ends with 10FFFF.
"""

import pathlib
import sys

COUNT = 0x110000
WIDE = 1  # East_Asian_Width W or F
MARK = 2  # General_Category Mn or Me
CONTROL = 4  # General_Category Cc
WHITE = 8  # White_Space
ASSIGNED = 16  # General_Category neither Cn nor Cs

# What EastAsianWidth.txt's header says of unassigned code points: these are W, all others N.
WIDE_BY_DEFAULT = [
    (0x3400, 0x4DBF),
    (0x4E00, 0x9FFF),
    (0xF900, 0xFAFF),
    (0x20000, 0x2FFFD),
    (0x30000, 0x3FFFD),
]


def lines(path):
    """The fields of each line that has any, without comments."""
    for line in path.read_text(encoding="utf-8").splitlines():
        line = line.split("#")[0].strip()
        if line:
            yield [field.strip() for field in line.split(";")]


def span(text):
    """The first code point of a field such as 3041..3096 or 3000, and the one past its last."""
    first, _, last = text.partition("..")
    return int(first, 16), int(last or first, 16) + 1


def categories(path):
    """General_Category of each code point; Cn where UnicodeData.txt has no line."""
    found = ["Cn"] * COUNT
    start = None
    for fields in lines(path):
        code, name, category = int(fields[0], 16), fields[1], fields[2]
        if name.endswith(", First>"):
            start = code
            continue
        first = start if name.endswith(", Last>") else code
        found[first : code + 1] = [category] * (code + 1 - first)
    return found


def widths(path, category):
    """East_Asian_Width of each code point, with the header's defaults where there is no line."""
    found = [None] * COUNT
    for fields in lines(path):
        first, end = span(fields[0])
        found[first:end] = [fields[1]] * (end - first)
    for first, last in WIDE_BY_DEFAULT:
        for code in range(first, last + 1):
            if found[code] is None and category[code] == "Cn":
                found[code] = "W"
    return found


def white_space(path):
    """The code points with the property White_Space."""
    found = set()
    for fields in lines(path):
        if fields[1] == "White_Space":
            found.update(range(*span(fields[0])))
    return found


def classes(folder):
    """The class of each code point."""
    category = categories(folder / "UnicodeData.txt")
    width = widths(folder / "EastAsianWidth.txt", category)
    white = white_space(folder / "PropList.txt")
    for code in range(COUNT):
        yield (
            WIDE * (width[code] in ("W", "F"))
            | MARK * (category[code] in ("Mn", "Me"))
            | CONTROL * (category[code] == "Cc")
            | WHITE * (code in white)
            | ASSIGNED * (category[code] not in ("Cn", "Cs"))
        )


def main():
    if len(sys.argv) != 2:
        sys.exit("usage: unicode_table.py FOLDER")
    print("# Unicode 15.0.0, from Debian's package unicode-data: made by tools/unicode_table.py.")
    print("# One run of equal class to a line: its first code point and its class, in hexadecimal.")
    print("# A class is a sum of 1 (East_Asian_Width W or F), 2 (General_Category Mn or Me), 4 (Cc),")
    print("# 8 (White_Space) and 10 (neither Cn nor Cs).")
    before = None
    for code, value in enumerate(classes(pathlib.Path(sys.argv[1]))):
        if value != before:
            print(f"{code:x} {value:x}")
        before = value


if __name__ == "__main__":
    main()

#!/usr/bin/env python3
"""The table of cases of crates/names, from the published Unicode data: for each code point from U+0080 to U+017F whether it is an upper or a lower letter,
and its other form.

usage: tools/cases.py [FOLDER]            compares both tables of crates/names with the data
       tools/cases.py --write [FOLDER]    writes them

FOLDER has UnicodeData.txt, SpecialCasing.txt and DerivedCoreProperties.txt; without it, where Debian's package unicode-data lays them. Where they are not
there nothing is compared, and the script says so.

A letter is upper or lower by the derived properties Uppercase and Lowercase. The other form of an upper letter is its lower one, that of a lower letter its
upper one: by SpecialCasing.txt where that has an entry without a condition, else by UnicodeData.txt, else the letter itself. These are Rust's is_uppercase,
is_lowercase, to_lowercase and to_uppercase. In the tables a form stands as its bytes in UTF-8.
"""
import pathlib
import re
import sys

TOP = pathlib.Path(__file__).resolve().parent.parent
DATA = "/usr/share/unicode"
FIRST, BEHIND = 0x80, 0x180
FILES = ["UnicodeData.txt", "SpecialCasing.txt", "DerivedCoreProperties.txt"]


def lines(path):
    """The fields of each line, comments aside."""
    for line in path.read_text(encoding="utf-8").splitlines():
        fields = [field.strip() for field in line.split("#")[0].split(";")]
        if len(fields) > 1:
            yield fields


def points(text):
    return [int(point, 16) for point in text.split()]


def property_of(folder, name):
    """The code points that have the property."""
    found = set()
    for fields in lines(folder / FILES[2]):
        if fields[1] == name:
            ends = [int(end, 16) for end in fields[0].split("..")]
            found.update(range(ends[0], ends[-1] + 1))
    return found


def forms(folder):
    """The upper and the lower form of each code point that has one."""
    upper, lower = {}, {}
    for fields in lines(folder / FILES[0]):
        point = int(fields[0], 16)
        if fields[12]:
            upper[point] = points(fields[12])
        if fields[13]:
            lower[point] = points(fields[13])
    for fields in lines(folder / FILES[1]):
        if not fields[4]:
            lower[int(fields[0], 16)], upper[int(fields[0], 16)] = points(fields[1]), points(fields[3])
    return upper, lower


def table(folder):
    """For each code point a word, Upper, Lower or Neither, and the bytes of its other form."""
    uppers, lowers = property_of(folder, "Uppercase"), property_of(folder, "Lowercase")
    upper, lower = forms(folder)
    for point in range(FIRST, BEHIND):
        word = "Upper" if point in uppers else "Lower" if point in lowers else "Neither"
        other = {"Upper": lower, "Lower": upper, "Neither": {}}[word].get(point, [point])
        yield word, "".join(map(chr, other)).encode()


def in_definition(entry):
    word, form = entry
    return word if word == "Neither" else f"{word} ({' ∷ '.join(map(str, form))} ∷ [])"


def in_code(entry):
    word, form = entry
    if word == "Neither":
        return "    None,"
    return f"    Some(Letter::{word}(Short::{['One', 'Two', 'Three'][len(form) - 1]}({', '.join(map(str, form))}))),"


def texts(entries):
    """What stands in each file between its two marks."""
    rows = [f"    {' ∷ '.join(map(in_definition, entries[at:at + 4]))} ∷" for at in range(0, len(entries), 4)]
    rows[-1] += " []"
    return {
        "crates/names/specs/Cases.antt": ("case_table =\n", "\n", "\n".join(rows)),
        "crates/names/src/cases.rt": ("static CASES: [Option<Letter>; 256] = [\n", "\n];", "\n".join(map(in_code, entries))),
    }


def main():
    arguments = [argument for argument in sys.argv[1:] if argument != "--write"]
    folder = pathlib.Path(arguments[0] if arguments else DATA)
    if not all((folder / name).exists() for name in FILES):
        print(f"cases: the published Unicode data is not in {folder}, the tables were not compared")
        return 0
    stale = False
    for name, (before, behind, text) in texts(list(table(folder))).items():
        file = TOP / name
        old = file.read_text(encoding="utf-8")
        at = old.index(before) + len(before)
        end = re.compile(re.escape(behind) + r"(?=\n|$)").search(old, at).start()
        if old[at:end] == text:
            continue
        if "--write" in sys.argv:
            file.write_text(old[:at] + text + old[end:], encoding="utf-8")
        else:
            print(f"cases: the table of {name} is not that of {folder}")
            stale = True
    if not stale:
        print(f"cases: both tables are those of {folder}")
    return 1 if stale else 0


if __name__ == "__main__":
    sys.exit(main())

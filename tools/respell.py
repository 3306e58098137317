#!/usr/bin/env python3
"""Spells this repository's own definitions and lemmas as today's Rattle does: words in snake case, types in camel case.

usage: tools/respell.py [FOLDER]

FOLDER is a checkout of this repository on which the kit's port.py has run (the default is the folder that it is called in). It turns
crates/**/*.antt, the clauses, imports and comments of crates/**/*.rt, the lines old: and new: of crates/**/*.edit, and the names in
back quotes of README.md and docs/. Strings stay as they are, and so do names that come from the kit's libraries, names of src/ and
exported C names. Run it once, right behind port.py: a second run changes nothing.
"""

import os
import re
import sys

# Names that say a fact, and so are types; and one that would be hidden by a parameter of its name.
GIVEN = {
    "isCount": "IsCount",
    "startsAt": "StartsAt",
    "pairsInside": "PairsInside",
    "placed": "IsPlaced",
    "judged": "IsJudged",
    "graphRows": "graph_row_list",
}
# Names that are turned in the file that declares them alone, since the word stands for other things elsewhere.
ONLY_IN = {
    "placed": ("crates/tape/", "crates/xsd_read/proofs/Laws/Loop.antt", "crates/replay/proofs/records/put_value/Proof.antt"),
    "judged": ("crates/ir_lower/specs/Examples.antt",),
}
# Words of XML Schema, which stay in comments and documents.
XML = {"minOccurs", "maxOccurs", "targetNamespace", "dateTime", "complexType", "simpleType", "elementFormDefault"}

PIECE = re.compile(r'--[^\n]*|//[^\n]*|b?"(?:[^"\\]|\\.)*"|b?\'(?:[^\'\\\n]|\\.)\'|«[^»]*»|[^\s(){}.;,@"«»\[\]\\]+')
WORD = re.compile(r"[A-Za-z_][\w'₀-₉◌-]*")
CAMEL = re.compile(r"◌?[a-z_][\w']*[A-Z]")
USE = re.compile(r"\buse ([^;{}\n]*?)\.\{([^}]*)\}", re.S)
CODE = (".antt", ".rt", ".edit")


def files(top):
    for folder, dirs, names in os.walk(os.path.join(top, "crates")):
        dirs[:] = sorted(d for d in dirs if d != "out")
        for name in sorted(names):
            if name.endswith(CODE):
                yield os.path.join(folder, name)


def read(path):
    with open(path, encoding="utf-8", newline="") as file:
        return file.read()


def of_the_kit(top):
    """The names that files import from libraries that are not the repository's."""
    own = set(os.listdir(os.path.join(top, "crates")))
    found = set()
    for path in (path for path in files(top) if not path.endswith(".edit")):
        for module, names in USE.findall(read(path)):
            crate = re.match(r"Rattle\.(\w+)\.", module.strip())
            if not (crate and crate[1] in own):
                found |= {name.split(" as ")[0].strip() for name in names.replace("\n", " ").split(",")}
    return found - {"marksOf"}


def snake(name):
    parts = []
    for part in name.split("-"):
        if CAMEL.match(part):
            part = re.sub(r"(?<=[a-z0-9'])([A-Z])", lambda it: "_" + it[1].lower(), part)
            part = re.sub(r"[A-Z]", lambda it: it[0].lower(), part)
        parts.append(part)
    return "-".join(parts)


def turned(word, path, kit):
    if word in kit:
        return word
    if word in GIVEN and (word not in ONLY_IN or any(start in path for start in ONLY_IN[word])):
        return GIVEN[word]
    return snake(word) if any(CAMEL.match(part) for part in word.split("-")) else word


def prose(text, path, kit, known):
    """Names in a comment: those that the code has, and no word of XML Schema."""
    return WORD.sub(lambda it: turned(it[0], path, kit) if it[0] in known and it[0] not in XML else it[0], text)


def code(text, path, kit, known):
    def each(it):
        piece = it[0]
        if piece.startswith(("--", "//")):
            return prose(piece, path, kit, known)
        if piece[0] in '"«' or piece.startswith(('b"', "b'", "'")):
            return piece
        return turned(piece, path, kit)

    return PIECE.sub(each, text)


def edit(text, path, kit, known):
    return "".join(code(line, path, kit, known) if re.match(r"(old|new):", line) else prose(line, path, kit, known) for line in text.splitlines(keepends=True))


def page(text, path, kit, known):
    return re.sub(r"`[^`\n]+`", lambda it: prose(it[0], path, kit, known), text)


def write(path, text, old):
    if text != old:
        with open(path, "w", encoding="utf-8", newline="") as file:
            file.write(text)
        print(path)


def main(top):
    kit = of_the_kit(top)
    known = set(GIVEN)
    for path in files(top):
        if path.endswith(".antt"):
            known |= {word for word in PIECE.findall(read(path)) if any(CAMEL.match(part) for part in word.split("-"))}
    pages = [os.path.join(top, "README.md")]
    for folder, _, names in os.walk(os.path.join(top, "docs")):
        pages += [os.path.join(folder, name) for name in sorted(names) if name.endswith(".md") and name != "PORT.md"]
    for path in list(files(top)):
        old = read(path)
        write(path, (edit if path.endswith(".edit") else code)(old, path, kit, known), old)
    for path in pages:
        old = read(path)
        write(path, page(old, path, kit, known), old)


if __name__ == "__main__":
    if len(sys.argv) > 2 or "-h" in sys.argv or "--help" in sys.argv:
        raise SystemExit(__doc__)
    main(sys.argv[1] if len(sys.argv) == 2 else ".")

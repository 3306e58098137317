#!/usr/bin/env python3
"""Lists the places of src/ that docs/DESIGN-PASS.md counts, point by point.

usage: tools/places.py [--top FOLDER] [POINT..] [--list]

A point is a number from 1 to 7. For each the script prints how many places its rules find, by kind; with --list each place, as
crate/file: name. The rules go by text:

  1a  enums with at least one variant that holds a value and at least one that says that there is none (NONE below) or holds a refusal
  1b  structs with a flag or a number of an answer beside the values that it speaks of (fields FLAG below)
  1c  functions whose comment, or that of their struct, has a number stand for "none"
  1d  functions that answer with a number of the returned ones, or with an `Answer` where that is a struct of two numbers
  1e  groups of constants that number kinds: three or more `pub const NAME: u32 = NUMBER;`, or `const`, in one file
  2   groups of two or more functions whose bodies are the same but for names, numbers and types, of at least SHORTEST tokens
  3   loops by `while` (all), those of them that count (`x += 1` or `x -= 1` on a variable of the test), and `for` loops and chains beside them
  4   functions that compare, copy, convert or print by hand: one conversion as the body, or a loop over two parts of the same index
  5a  facts of `requires` clauses that stand in three functions or more, names of parameters aside
  5b  pairs of parameters of the same names and types that stand in five functions or more
  6   parameters that count what of a slice beside them is used, and arrays of a fixed length
  7   functions that choose what to run by a flag, a letter or a number that the caller passes
"""
import argparse
import collections
import pathlib
import re

NONE = {"Neither", "Bad", "Invalid", "Nothing", "Missing", "NoRoom", "Full", "End", "Wrong", "Stop", "Refused", "Refuse", "Repeated", "Unknown"}
FLAG = {"ok": "bool", "follows": "bool", "in_words": "bool", "number": "u32"}
NUMBER_FOR_NONE = re.compile(r"(\b(0|9|16|19|38)\b|the largest number|past the end)[^.\n]*\b(where|if|for|past|when)\b", re.I)
KEYWORDS = {"if", "else", "while", "for", "in", "loop", "match", "return", "let", "mut", "fn", "as", "true", "false", "break", "continue"}
SHORTEST = 22
FN = re.compile(r"((?:^//[^\n]*\n)*)^(?:#\[[^\n]*\n)*( *)(?:pub )?(?:extern \"C\" )?fn (\w+)(<[^>]*>)?\(", re.M)
TOKEN = re.compile(r'b?"(?:[^"\\]|\\.)*"|b?\'(?:[^\'\\]|\\.)\'|\w+|[^\w\s]')


class Fn:
    def __init__(self, file, comment, name, params, contract, body, start):
        self.file, self.comment, self.name = file, comment, name
        self.params, self.contract, self.body, self.start = params, contract, body, start

    def where(self):
        return f"{self.file}: {self.name}"


def closing(text, at, pair):
    """The place behind the bracket that closes the one at `at`."""
    depth = 0
    while at < len(text):
        if text[at] == pair[0]:
            depth += 1
        elif text[at] == pair[1]:
            depth -= 1
            if depth == 0:
                return at + 1
        at += 1
    return at


def split_commas(text):
    parts, depth, last = [], 0, 0
    for i, c in enumerate(text):
        depth += c in "([{<"
        depth -= c in ")]}>"
        if c == "," and depth == 0:
            parts.append(text[last:i])
            last = i + 1
    return [p.strip() for p in parts + [text[last:]] if p.strip()]


def functions(file, text):
    for m in FN.finditer(text):
        start = m.end() - 1
        end = closing(text, start, "()")
        params = [tuple(x.strip() for x in p.split(":", 1)) if ":" in p else (p, "") for p in split_commas(text[start + 1:end - 1])]
        at = end
        while True:
            brace = text.find("{", at)
            line = text.rfind("\n", 0, brace) + 1
            if brace < 0 or not text[line:brace].strip():
                break
            if text[line:brace].lstrip().startswith(("requires", "ensures", "where")):
                at = closing(text, brace, "{}")
                continue
            break
        if brace < 0:
            continue
        stop = closing(text, brace, "{}")
        yield Fn(file, m.group(1), m.group(3), params, text[end:brace], text[brace:stop], m.start())


def blocks(text, word):
    for m in re.finditer(r"((?:^//[^\n]*\n)*)(?:^#\[[^\n]*\n)*^(?:pub )?" + word + r" (\w+)[^{;(]*\{", text, re.M):
        end = closing(text, m.end() - 1, "{}")
        yield m.group(1), m.group(2), text[m.end():end - 1]


def skeleton(body):
    names, out = {}, []
    for t in TOKEN.findall(body):
        if t in KEYWORDS or not re.match(r"\w|b?[\"']", t):
            out.append(t)
        elif re.match(r"\d|b?[\"']", t):
            out.append("#")
        else:
            out.append(names.setdefault(t, f"n{len(names)}"))
    return tuple(out)


def facts(contract, params):
    for m in re.finditer(r"requires\s*(?:\w+\s*)?\{", contract):
        clause = contract[m.end():closing(contract, m.end() - 1, "{}") - 1]
        for fact in re.split(r"\s×\s", clause):
            fact = fact.strip()
            while fact.startswith("(") and closing(fact, 0, "()") == len(fact):
                fact = fact[1:-1].strip()
            yield re.sub(r"\b\w+\.(now|old)\b", "_", fact)


def report(point, kinds, list_all):
    for kind, places in kinds:
        print(f"{point}{kind}: {len(places)}")
        if list_all:
            for p in places:
                print(f"    {p}")


def main():
    ask = argparse.ArgumentParser()
    ask.add_argument("points", nargs="*", default=[])
    ask.add_argument("--top", default=".")
    ask.add_argument("--list", action="store_true")
    a = ask.parse_args()
    points = set(a.points) or set("1234567")
    top = pathlib.Path(a.top) / "crates"
    texts = {str(f.relative_to(top)): f.read_text() for f in sorted(top.glob("*/src/**/*.rt"))}
    fns = [f for name, text in texts.items() for f in functions(name, text)]
    print(f"functions: {len(fns)}")
    if "1" in points:
        own, flags = [], []
        for name, text in texts.items():
            for _, e, body in blocks(text, "enum"):
                variants = re.findall(r"^\s*(\w+)\s*(\(|\{|,|$)", body, re.M)
                names = {v for v, _ in variants}
                if names & NONE:
                    own.append(f"{name}: {e}")
            for _, s, body in blocks(text, "struct"):
                for f, t in re.findall(r"(\w+):\s*([\w<>\[\];& ]+)", body):
                    if FLAG.get(f) == t.strip():
                        flags.append(f"{name}: {s}.{f}")
        none = [f.where() for f in fns if NUMBER_FOR_NONE.search(f.comment)]
        pairs = any("struct Answer" in text for text in texts.values())
        answers = [f.where() for f in fns if pairs and re.search(r"->\s*Answer\b", f.contract.split("requires")[0].split("ensures")[0])
                   or "returned::" in f.body and "-> u32" in f.contract]
        kinds = []
        for name, text in texts.items():
            constants = re.findall(r"^(?:pub )?const (\w+): u32 = \d+;", text, re.M)
            if len(constants) >= 3:
                kinds.append(f"{name}: {len(constants)} constants")
        report("1", [("a own enums", own), ("b flags beside values", flags), ("c numbers for none", none),
                     ("d numbers for refusals", answers), ("e numbers for kinds", kinds)], a.list)
    if "2" in points:
        groups = collections.defaultdict(list)
        for f in fns:
            s = skeleton(f.body)
            if len(s) >= SHORTEST:
                groups[s].append(f.where())
        twins = [", ".join(g) for g in groups.values() if len(g) > 1]
        report("2", [(" groups of twins", twins)], a.list)
    if "3" in points:
        loops = [(f, m) for f in fns for m in re.finditer(r"\bwhile ([^{]*)\{", f.body)]
        count = []
        for f, m in loops:
            body = f.body[m.end() - 1:closing(f.body, m.end() - 1, "{}")]
            test = set(re.findall(r"\w+", m.group(1)))
            if any(v in test for v in re.findall(r"\b(\w+) [+-]= 1;", body)):
                count.append(f.where())
        report("3", [(" loops by while", [f.where() for f, _ in loops]), (" of them counting", count),
                     (" for loops", [f.where() for f in fns for _ in re.findall(r"\bfor .* in ", f.body)]),
                     (" chains and slice methods", [f.where() for f in fns for _ in re.findall(
                         r"\.(?:iter|iter_mut|chunks_exact|contains|starts_with|ends_with|strip_prefix|strip_suffix|fill|copy_from_slice|copy_within|windows)\(", f.body)])],
               a.list)
    if "4" in points:
        one = [f.where() for f in fns if re.fullmatch(r"\{\s*(\w+ as \w+|if \w+ \{ \d+ \} else \{ \d+ \})\s*\}", f.body)]
        number = [f.where() for f in fns if re.fullmatch(r"\{\s*match \w+ \{(\s*[\w:]+(\([^)]*\))? => [\w:]+,)+\s*\}\s*\}", f.body)]
        index = [f.where() for f in fns if re.search(r"(\w+)\[([^\]]+)\] [!=]= (\w+)\[\2\]|(\w+)\[[^\]]*\b(\w+)\] = \w+\[[^\]]*\b\5\]", f.body)]
        report("4", [("a conversions", one), ("b cases turned one by one", number), ("c compares and copies by index", index)], a.list)
    if "5" in points:
        seen, pairs = collections.defaultdict(set), collections.defaultdict(set)
        for f in fns:
            for x in facts(f.contract, f.params):
                seen[x].add(f.where())
            named = [f"{n}: {re.sub(chr(39) + r'[a-z] ?', '', t)}" for n, t in f.params]
            for i, x in enumerate(named):
                for y in named[i + 1:]:
                    pairs[x, y].add(f.where())
        often = sorted(((len(s), x) for x, s in seen.items() if len(s) >= 3), reverse=True)
        both = sorted(((len(s), f"{x}, {y}") for (x, y), s in pairs.items() if len(s) >= 5), reverse=True)
        report("5", [("a facts in three contracts or more", [f"{n} {x}" for n, x in often]),
                     ("b pairs of parameters in five functions or more", [f"{n} {x}" for n, x in both])], a.list)
    if "6" in points:
        beside = [f.where() + f": {n}" for f in fns for n, t in f.params if t == "usize" and n in {"used", "entries", "buckets", "count", "n"}]
        arrays = [f"{name}: {m.group(0)}" for name, text in texts.items() for m in re.finditer(r"let mut \w+(: \[\w+; \w+\])? = \[[^\];]+; [^\]]+\]", text)]
        report("6", [("a lengths beside a buffer", beside), ("b arrays of a fixed length", arrays)], a.list)
    if "7" in points:
        chosen = [f.where() for f in fns if any(t in ("bool", "u8") and n in {"simple", "complex", "first", "lowers", "up", "letter", "kind", "normalised", "normalized", "start", "codes", "plain", "kept"}
                                                 for n, t in f.params)]
        report("7", [(" functions that choose by what is passed", chosen)], a.list)


main()

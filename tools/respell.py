#!/usr/bin/env python3
"""Spells the definitions and lemmas of this repository as today's Rattle does.

usage: python3 tools/respell.py [ROOT]      once, after port.py, before any edit by hand

A word is in snake case, a type in camel case. Where two names fall together, a lemma gets `_lem` behind its definition's name, and a
definition of the flat form (block/specs/Flat) gets `flat_` before the Rust's. Functions of src/, exported names, strings, inputs and
outputs keep their names, and so do the names that Rattle makes in a function's proof. It prints the names that changed, and stops where
a file would import two names that are then spelled alike.
"""
import collections
import os
import re
import sys

WORD = r"[^\s(){}.;,@\"«»]+"
MODIFIERS = r"(?:(?:abbrev|unfoldable|abstract|pub) +)*"
DECLARED = re.compile(rf"^ *({MODIFIERS})([^\s:(){{}}.,]+)((?: \{{[^{{}}]*\}})*) *:(?:\s|$)")
TYPE = re.compile(r"^(?:pub )?(?:unfoldable )?(?:pub )?(data|record) ([^\s:(){}]+)")
MADE = re.compile(r":\s*(?:goal|tie|c|needs?|given)\.|statement")
SKIP = re.compile(r"^ *(?:--|use |pub use |mod |pub mod |infix|unfolding |open |module )|^\s*$")

# What the rules do not settle: (a file's or folder's beginning, old) and the new name.
APART = {
    ("block/proofs/Narrow.antt", "at-wrap"): "at_wrap_lem",
    ("reader/", "is-border"): "is_border",
    ("append_subrender/proofs/Adding.antt", "is-border"): "is_border_lem",
    ("", "sheet-of"): "sheet_of_flushed",
    ("", "preWrapped"): "pre_wrapped",
    ("", "pre-wrapped"): "pre_wrapped",
}


def words(name):
    return re.sub(r"(?<=[a-z0-9])[A-Z]", lambda m: "_" + m[0].lower(), name).replace("-", "_")


def camel(name):
    return "".join(it[:1].upper() + it[1:] for it in words(name).split("_"))


def texts(root, ends):
    for folder, dirs, files in os.walk(os.path.join(root, "crates")):
        dirs[:] = sorted(it for it in dirs if it != "out")
        for it in sorted(files):
            if it.endswith(ends):
                path = os.path.join(folder, it)
                yield path, path.split("/crates/", 1)[1]


def declared(root):
    """Each name with where it stands, its kind and its line."""
    found = collections.defaultdict(list)
    for path, short in texts(root, ".antt"):
        parts = short.split("/")
        of_function = parts[1] == "proofs" and len(parts) > 3
        kind_of_fields = None
        with open(path, encoding="utf-8") as file:
            for line in file.read().split("\n"):
                if SKIP.match(line):
                    continue
                type_of = TYPE.match(line)
                if type_of:
                    found[type_of[2]].append((short, "type", line))
                    kind_of_fields = "field" if type_of[1] == "record" else "constructor"
                    continue
                if kind_of_fields and line.startswith("  "):
                    member = re.match(r"^  +(?:pub )?([^\s:(){}]+) *:", line)
                    if member:
                        found[member[1]].append((short, kind_of_fields, line))
                    continue
                if not line.startswith(" "):
                    kind_of_fields = None
                it = DECLARED.match(line)
                if not it or of_function and MADE.search(line):
                    continue
                is_definition = parts[1] == "specs" or "abbrev" in it[1] or "unfoldable" in it[1]
                is_type = is_definition and re.search(r"(?:→|:) Type 0$", line)
                found[it[2]].append((short, "fact" if is_type else "definition" if is_definition else "lemma", line))
    return found


def spelled(found):
    """The new name of each old one."""
    new = {}
    for name, places in found.items():
        if "◌" in name or not re.fullmatch(r"[A-Za-z0-9_'-]+", name) or name[0].isupper():
            continue
        new[name] = camel(name) if all(it[1] == "fact" for it in places) else words(name)
    definitions = collections.defaultdict(set)
    for name, places in found.items():
        if any(it[1] == "definition" for it in places):
            definitions[new.get(name, name)].add(name)
    for name in list(new):
        kinds = {it[1] for it in found[name]}
        meet = definitions[new[name]] - {name}
        if kinds <= {"lemma"} and meet:
            new[name] += "_lem"
        elif "definition" in kinds and any(it[0] == "block/specs/Flat.antt" for it in found[name]) and any("-" in it for it in meet):
            new[name] = "flat_" + new[name]
    return {old: it for old, it in new.items() if old != it}


def main(argv):
    root = os.path.abspath(argv[0] if argv else os.path.join(os.path.dirname(os.path.abspath(__file__)), ".."))
    found = declared(root)
    new = spelled(found)
    in_source = {old: it for old, it in new.items() if any(k[1] in ("definition", "fact", "field", "constructor") for k in found[old]) and not re.fullmatch(r"[a-z0-9_']+", old)}

    def renamed(short, word, table):
        for (where, old), it in APART.items():
            if old == word and short.startswith(where):
                return it
        return table.get(word)

    for path, short in texts(root, (".antt", ".rt", ".edit")):
        with open(path, encoding="utf-8") as file:
            text = file.read()
        parts = short.split("/")
        of_function = parts[1] == "proofs" and len(parts) > 3
        made = set(re.findall(rf"(?m)^(?:pub )?({WORD}) : (?:tie|goal)\.", text)) if of_function else set()
        modules = set(re.findall(rf"(?m)^use \S+ as ({WORD})$", text)) - {"tie", "goal"}
        table = new if path.endswith(".antt") else in_source

        def turn(match):
            word, before = match[0], text[: match.start()]
            if word in made:
                return word
            if of_function and before.endswith("."):
                head = re.search(rf"({WORD})\.$", before)
                if not head or head[1] not in modules:
                    return word
            return renamed(short, word, table) or word

        if path.endswith(".antt"):
            done = re.sub(rf"(?<![^\s(){{}}.;,@\"«»`]){WORD}", turn, text)
            done = re.sub(rf"`({WORD})`", lambda m: "`" + (renamed(short, m[1], table) or m[1]) + "`", done)
        else:
            done = re.sub(r"(?<![\w'-])[A-Za-z][\w'-]*(?![\w'-])", lambda m: renamed(short, m[0], table) or m[0], text)
        if done != text:
            with open(path, "w", encoding="utf-8") as file:
                file.write(done)

    wrong = 0
    for path, short in texts(root, (".antt", ".rt")):
        with open(path, encoding="utf-8") as file:
            text = file.read()
        names = [it.split(" as ")[-1].strip() for group in re.findall(r"(?m)^(?:ghost )?use [^\n{]*\{([^}]*)\}", text) for it in group.split(",")]
        for name, n in collections.Counter(it for it in names if it).items():
            if n > 1 and path.endswith(".antt"):
                wrong += 1
                print(f"twice: {short}: {name}")
        if path.endswith(".antt") and len(short.split("/")) == 3:
            own = [it[2] for it in (DECLARED.match(line) for line in text.split("\n") if not SKIP.match(line) and not line.startswith("  ")) if it]
            for name in own:
                if names.count(name) or own.count(name) > 1:
                    wrong += 1
                    print(f"met: {short}: {name}")
    for old in sorted(new):
        print(f"{old} {new[old]}")
    return 1 if wrong else 0


if __name__ == "__main__":
    raise SystemExit(main(sys.argv[1:]))

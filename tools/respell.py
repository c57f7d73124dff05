#!/usr/bin/env python3
"""Respells this repository's own definitions, lemmas and ghost members as the Rattle guides do.

usage: python3 tools/respell.py [--list]      at the top, once, after the kit's own scripts

Words, lemmas and their variables go in snake case, facts and types in upper camel case. A dash stays only between the
names of two definitions, as in `length-packed`. A lemma that would have a definition's name ends in `_lem`. What src/
calls functions, types and fields keeps its name. With --list it prints the renamings and writes nothing.
"""

import pathlib
import re
import sys

TOP = pathlib.Path(".")
DECLARED = re.compile(r"\s*(abbrev |unfoldable )?(pub )?(record |data )?([^\s(){}:;.«»]+)((?: [({].*)?) : (.*)")
TOKEN = re.compile(r"[^\s(){}\[\];,.:`\"⌜⌝«»]+")
CAMEL = re.compile(r"[a-z][A-Za-z0-9]*[A-Z][A-Za-z0-9]*")
# a bound's member by the parameter and the member alone, as C.rule
BOUND = re.compile(r"\b([A-Z])\.(?:WordCipher|Memory)\.(\w+)")
KNOWN = {"length", "get_or", "map", "sum"}
# names that would otherwise fall together with a field or a ghost member, and two in which a plain word only looks like
# the name of a definition
APART = {"strikesLeft": "strikes_left_of", "patch-after": "patch_after", "woven-odd": "woven_odd"}
APART_IN = {"crates/life/proofs/Telling.antt": {"key_of": "key_of_lem"}}


def files(pattern):
    return sorted(TOP.glob(pattern))


def snake(name):
    return re.sub(r"(?<=[a-z0-9])([A-Z])", lambda m: "_" + m.group(1).lower(), name)


def camel(name):
    return "".join(part[:1].upper() + part[1:] for part in name.split("-"))


def declared():
    """Each own name with the kind of its declaration: 'definition', 'lemma' or 'field'."""
    found = {}
    for path in files("crates/*/specs/**/*.antt") + files("crates/*/proofs/**/*.antt"):
        in_record = False
        for line in path.read_text().split("\n"):
            if line.strip().startswith("--"):
                continue
            m = DECLARED.match(line)
            if line and not line[0].isspace():
                in_record = bool(re.match(r"(pub )?record ", line))
            if not m or m.group(6).startswith("goal."):
                continue
            kind = "definition" if m.group(1) or m.group(3) else "field" if in_record and line[0].isspace() else "lemma"
            found.setdefault(m.group(4), kind)
    for path in files("crates/*/src/**/*.rt"):
        text = path.read_text()
        for m in re.finditer(r"\bghost ([a-zA-Z_]\w*):", text):
            found.setdefault(m.group(1), "definition")
        for m in re.finditer(r"\w as ([a-z]\w*)", "\n".join(l for l in text.split("\n") if l.startswith("ghost use"))):
            found.setdefault(m.group(1), "alias")
    return found


def renamings():
    names = declared()
    definitions = {snake(n) for n, kind in names.items() if kind == "definition"} | KNOWN
    new = {}
    for name, kind in names.items():
        to = name.replace("getD", "get_or")
        if to[0].isupper():
            to = camel(to) if "-" in to else to
        else:
            to = snake(to)
            if "-" in to:
                first, *rest = to.split("-")
                out = first
                for part in rest:
                    out += ("-" if part in definitions and out in definitions and kind == "lemma" else "_") + part
                to = out
        if kind == "lemma" and to in definitions and to != name:
            to += "_lem"
        to = APART.get(name, to)
        if to != name:
            new[name] = to
    taken = {}
    for name in list(names):
        to = new.get(name, name)
        if to in taken and taken[to] != name:
            print(f"falls together: {taken[to]} and {name} at {to}", file=sys.stderr)
        taken.setdefault(to, name)
    return names, new


def turn(text, names, new, rust):
    out = []
    for line in text.split("\n"):
        head, mark, tail = line.partition("--") if not rust else line.partition("//")

        def one(m):
            token = m.group(0)
            if token not in new:
                local = not rust and CAMEL.fullmatch(token)
                return snake(token) if local else token
            behind = head[: m.start()].endswith(".")
            if CAMEL.fullmatch(token) or not behind or names[token] == "field" or head[: m.start()].rstrip().endswith(".{"):
                return new[token]
            return token

        turned = TOKEN.sub(one, head)
        if mark:
            tail = re.sub(CAMEL, lambda m: new.get(m.group(0), m.group(0)), tail)
        out.append(turned + mark + tail)
    return "\n".join(out)


def main():
    names, new = renamings()
    if "--list" in sys.argv:
        for a, b in sorted(new.items()):
            print(a, "->", b, f"({names[a]})")
        return
    for path in files("crates/*/src/**/*.rt") + files("crates/*/specs/**/*.antt") + files("crates/*/proofs/**/*.antt"):
        text = path.read_text()
        turned = turn(text, names, new | APART_IN.get(str(path), {}), path.suffix == ".rt")
        if path.suffix == ".rt":
            turned = BOUND.sub(r"\1.\2", turned)
        if turned != text:
            path.write_text(turned)
    for path in files("docs/*.md"):
        text = path.read_text()
        turned = re.sub(r"`[^`]+`", lambda m: TOKEN.sub(lambda t: new.get(t.group(0), t.group(0)), m.group(0)), text)
        if turned != text:
            path.write_text(turned)


main()

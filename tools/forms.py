#!/usr/bin/env python3
"""Counts in crates/*/src the places of older forms that docs/DESIGN-PASS.md speaks of, and prints each.

    python3 tools/forms.py [FOLDER]     FOLDER is the top of a checkout, this one if none is named

It reads text and knows no Rattle: a line is a place to look at, and what it cannot see was looked for by eye.
"""
import re
import sys
from collections import defaultdict
from pathlib import Path

TOP = Path(sys.argv[1]) if len(sys.argv) > 1 else Path(__file__).resolve().parent.parent


def sources():
    for path in sorted(TOP.glob("crates/*/src/**/*.rt")):
        yield path, path.read_text(encoding="utf-8")


def where(path, text, offset):
    return f"{path.relative_to(TOP)}:{text.count(chr(10), 0, offset) + 1}"


def by_pattern(pattern):
    found = []
    for path, text in sources():
        for hit in re.finditer(pattern, text, re.M):
            line = text[text.rfind("\n", 0, hit.start()) + 1:text.find("\n", hit.start())]
            if not line.lstrip().startswith(("//", "ghost use")):
                found.append((where(path, text, hit.start()), line.strip()[:90]))
    return found


def functions():
    """Each fn: its place, name, and its parameters as (name, type)."""
    for path, text in sources():
        for hit in re.finditer(r"^ *(?:pub(?:\(crate\))? )?fn (\w+)(?:<[^(]*>)?\(([^)]*)\)", text, re.M):
            flat = re.sub(r"\s+", " ", hit.group(2)).strip(" ,")
            params = tuple(tuple(p.strip().split(": ", 1)) for p in re.split(r", (?=\w+:|&|mut )", flat) if ": " in p)
            yield where(path, text, hit.start()), hit.group(1), params


def clauses():
    """Each text of a requires or an ensures, with the places where it stands."""
    places = defaultdict(list)
    for path, text in sources():
        for hit in re.finditer(r"^ *(requires|ensures)\*? ?\w* ?(\{.*\})$", text, re.M):
            places[f"{hit.group(1)} {hit.group(2)}"].append(where(path, text, hit.start()))
    return places


def together():
    """Pairs of parameters, by name and type, that stand in three functions or more."""
    pairs = defaultdict(list)
    for place, name, params in functions():
        plain = [p for p in params if p[0] not in ("rt", "self", "heap")]
        for i, p in enumerate(plain):
            for q in plain[i + 1:]:
                pairs[p, q].append(f"{place} {name}")
    return {k: v for k, v in pairs.items() if len(v) >= 3}


def show(title, found):
    print(f"{title}: {len(found)}")
    for place in found:
        print("   ", *place)


show("1a enums", by_pattern(r"^ *(pub(\(crate\))? )?enum \w+"))
show("1b numbers for kinds", by_pattern(r"\.number\(\)|\bfn mode_from\b|\brow: usize"))
show("1c an error handed on by a match", by_pattern(r"Err\([a-z]+\) => (return )?Err\([a-z_.]+(\([a-z]+\))?\)|if let Err\([a-z]+\) ="))
show("1d a state beside its values", by_pattern(r"^ *pub\(crate\) (condition: Condition|version: Option<u32>),"))
show("2a arms that differ in a constant", by_pattern(r"=> (chi_chi|chi_chi_inverse|apply|apply_inverse|part_of|circulant)\("))
names = defaultdict(list)
for place, name, _ in functions():
    names[name].append(place)
METHODS = {"new", "main", "run", "fmt", "from", "drop", "mode", "tag_length", "load", "encrypt", "decrypt", "slots", "read", "write", "into_parts"}
show("2b functions of one name in several files", sorted((n, " ".join(p)) for n, p in names.items() if len(p) > 1 and n not in METHODS))
show("3a while and loop", by_pattern(r"^ *(while|loop)\b"))
show("3b a for over a range of indices", by_pattern(r"^ *for \w+ in [^{]*\.\."))
show("4 conversion, comparison or printing by hand", by_pattern(
    r"\bfn (\w+_name|\w+_text|text_of|reply_of|refusal_of|told_of|told|is_instruction|read_six|six_bytes|form_of|letter|mode_from|number|digit_of|is_digit|print_(bytes|high|low))\b"))
show("5a a clause in three contracts or more", sorted((f"{len(p)}x", c[:100]) for c, p in clauses().items() if len(p) >= 3))
show("5b the members of a bound, one by one", by_pattern(r"\bC\.rule C\.mode_of C\.tag_of"))
show("5c parameters together in three functions or more", sorted((f"{len(v)}x", f"{k[0][0]}: {k[0][1]}, {k[1][0]}: {k[1][1]}") for k, v in together().items()))
show("6 a buffer with a length or a second buffer beside", by_pattern(r"\[u8; (64|512)\]|\bsize: usize|^ *(pub )?length: u32,|^ *(high: &'a|low: &'a)"))
show("7 closures, dyn, function pointers, tables of functions", by_pattern(r"\bdyn |\bfn\(|: (Fn|FnMut|FnOnce)\("))

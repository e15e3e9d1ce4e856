#!/usr/bin/env python3
"""Counts, in src/, the places of older forms that docs/DESIGN-PASS.md lists by their points.

Run at the top of the repository: python3 tools/forms.py [--list]. It reads text and judges nothing: which of the
places have to change is for a reader to say.
"""
import glob
import re
import sys
from collections import Counter, defaultdict

KEYWORDS = set("""fn let mut if else match return while loop for in as ref break continue pub self Self struct enum impl
true false Some None Ok Err usize u8 u32 u64 i32 i64 bool""".split())
LIST = "--list" in sys.argv


def files():
    for path in sorted(glob.glob("crates/*/src/**/*.rt", recursive=True)):
        with open(path, encoding="utf-8") as file:
            yield path[len("crates/"):], re.sub(r"//[^\n]*", "", file.read())


def functions(text):
    """Name, parameters, clauses and body of each function."""
    for head in re.finditer(r"\bfn (\w+)(<[^>]*>)?\(", text):
        depth, at = 1, head.end()
        while depth:
            depth += {"(": 1, ")": -1}.get(text[at], 0)
            at += 1
        parameters = re.sub(r"\s+", " ", text[head.end():at - 1])
        body = re.compile(r"^ *\{\n|(?<=[^{}\n]) \{\n", re.M).search(text, at)
        start = body.end() if body else at
        clauses = text[at:start]
        depth, end = 1, start
        while end < len(text) and depth:
            depth += {"{": 1, "}": -1}.get(text[end], 0)
            end += 1
        yield head.group(1), parameters, clauses, text[start:end - 1]


def names(parameters):
    return [p.split(":")[0].strip().replace("mut ", "") for p in parameters.split(",") if ":" in p]


def shape(body):
    """The body with every name and literal the same."""
    body = re.sub(r'b?"[^"]*"|b?\'[^\']*\'', "_", body)
    body = re.sub(r"\b\w+(::\w+)*\b", lambda m: m.group(0) if m.group(0) in KEYWORDS else "_", body)
    return re.sub(r"\s+", " ", body)


def show(title, places):
    print(f"{title}: {len(places)}")
    if LIST:
        for place in places:
            print(f"    {place}")


def main():
    grep = defaultdict(list)
    patterns = [
        ("1 enums", r"^\s*(?:pub )?enum (\w+)"),
        ("1 flags", r"^\s*(?:pub )?(\w+): bool,"),
        ("1 numbers for kinds (constants)", r"^pub const ([A-Z_]+): (?:usize|u32) = \d+;"),
        ("3 while and loop", r"^\s*((?:while|loop)\b.*)"),
        ("3 for over numbers", r"^\s*(for \w+ in [^&\n]*\.\.[^\n]*)"),
        ("4 as", r"^.*\w (as (?:usize|u8|u32|u64|i32|i64))\b"),
    ]
    twins, facts, groups, places = defaultdict(list), Counter(), Counter(), []
    travelling = [("tables", "size"), ("store", "size"), ("store", "size", "t", "c"), ("store", "tables", "values"),
                  ("code", "words", "n", "k"), ("output", "errors")]
    for path, text in files():
        for title, pattern in patterns:
            grep[title] += [f"{path}: {m.group(1)}" for m in re.finditer(pattern, text, re.M)]
        for name, parameters, clauses, body in functions(text):
            has = names(parameters)
            for group in travelling:
                groups[group] += all(one in has for one in group)
            if "at" in has and "out" in has:
                places.append(f"{path}: {name}")
            for fact in re.findall(r"requires(?: \w+)? \{ *(.*?) *\}", clauses, re.S):
                facts[re.sub(r"\.(now|old)\b", "", re.sub(r"\s+", " ", fact))] += 1
            if body.count("\n") > 2 and not path.startswith(("card_vectors", "sessions/src/calls")):
                twins[shape(body)].append(f"{path}: {name}")
    for title, _ in patterns:
        show(title, grep[title])
    alike = [" ~ ".join(group) for group in twins.values() if len(group) > 1]
    show("2 functions of one shape", alike)
    many = [f"{n} {fact}" for fact, n in facts.most_common() if n > 2]
    show("5 facts required by three functions or more", many)
    show("5 parameters that travel together", [f"{n} {', '.join(group)}" for group, n in groups.items() if n > 2])
    show("6 functions with a buffer and a place in it", places)


main()

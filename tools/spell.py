#!/usr/bin/env python3
"""Turns this repository's own names to today's spelling, once, right after the kit's port.py: words in snake case.

usage: python3 tools/spell.py        at the top of the repository

It respells, in specs/, proofs/, clauses, must-fail edits and pages, each word of the repository's own that has a capital inside or a dash;
what a file imports from the library keeps its spelling. A lemma that would get its function's name gets `_lem` behind it. It also gives
plain types `Clone` and `Copy` in place of `Drop`, and each root file the line that asks for the tactics.
"""

import os
import re

CRATES = [line.split(":")[0].split()[0] for line in open("crates.txt") if line.strip() and not line.startswith("#")]
OWN = re.compile(r"^Rattle\.(%s)\." % "|".join(CRATES))
WORD = re.compile(r"[A-Za-zα-ωΑ-Ω_][A-Za-z0-9_'₀-₉α-ω?≡≤<>≢-]*")
USE = re.compile(r"^\s*(?:pub |ghost )?use ([^\s{]+?)\.\{([^}]*)\}", re.M)
# Lemmas whose name is a function's once both are in snake case.
LEMMAS = {
    "at-end", "bare-item", "full-item", "item-read", "may-wait", "mutex-limit", "card-of", "faulted-at", "refused-set-up", "set-up",
    "same-result", "same-entry", "same-rule", "same-z", "lines-read", "named-in", "up-to", "words-of", "is-line", "semaphore-limit",
}
# .. and those that were in snake case already, in the files that define or cite them.
LEMMAS_IN = {
    "address_read": ("importer/proofs/Words.antt", "importer/proofs/Forth.antt"),
    "header_of": ("importer/proofs/Cards.antt",),
    "header_read": ("importer/proofs/Forth.antt",),
    "line_read": ("importer/proofs/Forth.antt",),
    "operand_read": ("importer/proofs/Words.antt", "importer/proofs/Forth.antt"),
}


def snake(word):
    return re.sub(r"([a-z0-9])([A-Z])", lambda m: m.group(1) + "_" + m.group(2).lower(), word).replace("-", "_")


def files(*endings):
    for folder, dirs, names in os.walk("."):
        dirs[:] = sorted(d for d in dirs if d not in ("out", "target", ".git", "tools"))
        for name in sorted(names):
            if name.endswith(endings):
                yield os.path.join(folder, name)[2:]


def read(path):
    return open(path, encoding="utf-8").read()


def of_library(text):
    found = set()
    for use in USE.finditer(text):
        if not OWN.match(use.group(1) + "."):
            found |= {word.strip() for word in use.group(2).split(",")}
    return found


def odd(word):
    return "-" in word or (word[0].islower() and re.search("[a-z][A-Z]", word))


def own_words():
    found = set()
    for path in files(".antt"):
        text = read(path)
        library = of_library(text)
        body = re.sub(r"--.*$", "", re.sub(r"^\s*(?:pub )?use .*$", "", text, flags=re.M), flags=re.M)
        found |= {m.group(0) for m in WORD.finditer(body) if odd(m.group(0)) and m.group(0) not in library}
    return found


def respelled(path, text, words, library, dashes=True):
    def one(match):
        word = match.group(0)
        before = text[match.start() - 1] if match.start() else ""
        step = before == "." and path.endswith("/Proof.antt")
        if word in LEMMAS_IN and any(path.endswith(end) for end in LEMMAS_IN[word]) and not step:
            return word + "_lem"
        if word not in words or word in library:
            return word
        if "-" in word and not dashes:
            return word
        return snake(word) + ("_lem" if word in LEMMAS and not step else "")

    return WORD.sub(one, text)


def respell_antt(words):
    for path in files(".antt"):
        lines, out = read(path).split("\n"), []
        library = of_library("\n".join(lines))
        for line in lines:
            use = USE.match(line)
            if use and not OWN.match(use.group(1) + "."):
                out.append(line)
                continue
            code, mark, comment = line.partition("-- ") if not line.startswith("-- ") else ("", "-- ", line[3:])
            out.append(respelled(path, code, words, library) + mark + respelled(path, comment, words, library, dashes=False))
        write(path, "\n".join(out))


def respell_rt(words):
    for path in files(".rt"):
        text = read(path)
        library = of_library(text)
        out, depth = [], 0
        for line in text.split("\n"):
            clause = re.match(r"\s*(requires|ensures|ghost)\b", line)
            inside = depth > 0 or clause
            if inside and not line.lstrip().startswith("//"):
                depth += line.count("{") - line.count("}")
                depth = max(depth, 0)
            use = USE.match(line)
            if use and not OWN.match(use.group(1) + "."):
                out.append(line)
                continue
            out.append(respelled(path, line, words, library, dashes=bool(inside) and not line.lstrip().startswith("//")))
        write(path, "\n".join(out))


def all_words():
    """Each word of the sources as they now stand, for what cites them and isn't one: edits and pages."""
    found = set()
    for path in files(".antt"):
        found |= {m.group(0) for m in WORD.finditer(read(path))}
    return found


class Known(set):
    """The words whose snake case is a word of the sources."""

    def __contains__(self, word):
        return odd(word) and (snake(word) in self.now or word in LEMMAS)


def respell_edits(words):
    for path in files(".edit"):
        out = []
        for line in read(path).split("\n"):
            head, mark, rest = line.partition(": ")
            if head in ("old", "new") and mark:
                line = head + mark + respelled(path, rest, words, set())
            out.append(line)
        write(path, "\n".join(out))


def respell_pages(words):
    for path in files(".md"):
        if path.startswith("docs/PORT"):
            continue
        text = read(path)
        write(path, re.sub(r"`[^`\n]*`", lambda m: respelled(path, m.group(0), words, set()) if "/" not in m.group(0) else m.group(0), text))


def derive_copy():
    for path in files(".rt"):
        text = read(path)

        def one(match):
            body = match.group(2)
            return match.group(0) if "&" in body and "mut" in body else "#[derive(Clone, Copy)]\n" + body

        write(path, re.sub(r"(#\[derive\(Drop\)\])\n((?:pub )?(?:struct|enum) [^\n]*(?:;|\{[^}]*\}))", one, text))


def ask_tactics():
    for crate in CRATES:
        for root in ("lib.rt", "main.rt"):
            path = "crates/%s/src/%s" % (crate, root)
            if os.path.exists(path):
                lines = read(path).split("\n")
                if "#![tactic(auto)]" in lines:
                    continue
                at = 0
                while at < len(lines) and lines[at].startswith("//"):
                    at += 1
                lines.insert(at, "#![tactic(auto)]")
                write(path, "\n".join(lines))


def write(path, text):
    if text != read(path):
        with open(path, "w", encoding="utf-8") as file:
            file.write(text)


def main():
    words = own_words()
    respell_antt(words)
    respell_rt(words)
    cited = Known()
    cited.now = all_words()
    respell_edits(cited)
    respell_pages(cited)
    derive_copy()
    ask_tactics()
    print("spell: %d words" % len(words))


main()

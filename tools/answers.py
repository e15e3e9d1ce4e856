#!/usr/bin/env python3
"""Turns a crate's proofs of the older form, Proof.antt with `tie.spec`, into Invariants.antt and Answers.antt.

usage: python3 tools/answers.py NAMES CRATE [FOLDER..]      at the top of the repository

NAMES is the file that `rt check --generated DIR --old-names` writes in the crate's folder. Answers by `search rules` alone are left out.
What it can't turn it prints, and leaves the file as it is.
"""

import json
import os
import re
import sys

PATH = re.compile(r"(?<![\w.'])c((?:\.[A-Za-z0-9_'-]+)+)(?![\w'])")
BARE = re.compile(r"(?<![\w.'])c(?![\w.'])")


def plain(word):
    return word.replace("-", "_").lower()


def clauses_of(sources):
    """The names of each function's clauses, in order: of `requires` and of `ensures`."""
    found = {}
    for path in sources:
        text = open(path, encoding="utf-8").read()
        for fn in re.finditer(r"\bfn (\w+)(?:<[^>]*>)?\s*\(", text):
            at, depth = fn.end(), 1
            while depth:
                depth += {"(": 1, ")": -1}.get(text[at], 0)
                at += 1
            head = text[at:]
            names = {"requires": [], "ensures": []}
            names["lent"] = re.findall(r"(\w+): &(?:'\w+ )?mut \[", text[fn.end() : at])
            # up to the body: a line that is `{` alone, or ends the signature
            pos = 0
            result = re.match(r"\s*(?:->\s*[^{]*?)?(?=\n\s*(?:requires|ensures|ghost|\{)|\s*\{)", head)
            pos = result.end() if result else 0
            while True:
                clause = re.match(r"\s*(?://[^\n]*\n\s*)*(requires|ensures|ghost)\s*(\*?)\s*([a-z_0-9]*)\s*\{", head[pos:])
                if not clause:
                    break
                names.setdefault(clause.group(1), []).append(clause.group(3))
                pos += clause.end()
                d = 1
                while d:
                    d += {"{": 1, "}": -1}.get(head[pos], 0)
                    pos += 1
            found.setdefault(fn.group(1), names)
            found.setdefault(path.split("/")[1] + "::" + fn.group(1), names)
    return found


def blocks(text):
    """The file's top-level pieces: a comment or an attribute goes with what follows it."""
    out, cur = [], []
    for line in text.split("\n"):
        starts = line and not line[0].isspace() and line[0] not in ")}]"
        if starts and cur and not all(x.startswith("--") or not x.strip() for x in cur):
            head = [x for x in cur if x.strip() and not x.startswith("--")][0]
            name = re.match(r"(?:abbrev |unfoldable |pub )*([^\s:({]+)", head).group(1)
            if not (re.match(re.escape(name) + r"[\s:]", line) or line.startswith("unfolding") or line.startswith(name + " ")):
                out.append("\n".join(cur).strip("\n"))
                cur = []
        cur.append(line)
    if any(x.strip() for x in cur):
        out.append("\n".join(cur).strip("\n"))
    return out


def arguments(text):
    """The arguments of `tie.spec`, as texts."""
    out, at = [], 0
    while at < len(text):
        if text[at].isspace():
            at += 1
        elif text[at] == "(":
            depth, start = 0, at
            while True:
                depth += {"(": 1, ")": -1}.get(text[at], 0)
                at += 1
                if depth == 0:
                    break
            out.append(text[start:at])
        else:
            start = at
            while at < len(text) and not text[at].isspace():
                at += 1
            out.append(text[start:at])
    return out


def pieces(inner):
    """What commas part, outside of brackets."""
    out, depth, start = [], 0, 0
    for k, ch in enumerate(inner):
        depth += {"(": 1, "{": 1, "[": 1, ")": -1, "}": -1, "]": -1}.get(ch, 0)
        if ch == "," and depth == 0:
            out.append(inner[start:k].strip())
            start = k + 1
    if inner[start:].strip():
        out.append(inner[start:].strip())
    return out


class Turn:
    def __init__(self, crate, folder, names, clauses):
        self.crate, self.folder, self.names, self.clauses = crate, folder, names, clauses
        self.said = []
        self.goals = {}
        self.cited = set()
        self.over = {}
        self.places = {p[0]: p for p in names["places"]}
        self.fn = folder.split("/")[-1]

    def say(self, text):
        self.said.append(text)

    def label(self, fn, kind, segs):
        """`.ensures.0` by its clause's name."""
        names = self.clauses.get(fn, {}).get(kind, [])
        if len(names) > 1 and all(names):
            at, left = 0, list(names)
            while at < len(segs) and segs[at] in ("0", "1"):
                if segs[at] == "0" or len(left) == 2:
                    return [left[int(segs[at])]] + segs[at + 1 :]
                at, left = at + 1, left[1:]
        return segs

    def key(self, callee):
        """A function by its crate and name, as `words::find`."""
        return "::".join([callee.split("::")[0], callee.split("::")[-1]])

    def path(self, match, place):
        segs = match.group(1)[1:].split(".")
        here = place
        while segs and segs[0] == "before":
            here = self.places[here][1] if here in self.places else None
            named = [x for x in segs if x != "before"]
            if here is None and named and named[0] in ("requires", "args", "ranges"):
                here, segs = "Start", ["before"] + named
            if here is None and named:
                here, segs = "Start", ["before"] + named
            if here is None:
                self.say("no place above %s in %s" % (place, match.group(0)))
                return match.group(0)
            segs = segs[1:]
        if not segs:
            return self.record(here)
        if segs[0] not in ("requires", "args", "ranges", "type_inv", "auto") and plain(segs[0]) != plain(self.places[here][2][0]):
            chain, at = [], place
            while at:
                if plain(self.places[at][2][0]) == plain(segs[0]):
                    chain.append(at)
                at = self.places[at][1]
            if len(chain) == 1:
                here = chain[0]
        old, new = self.places[here][2]
        if plain(segs[0]) == plain(old) and segs[1:3] == ["given", "1"]:
            at = here
            while at and not at.startswith("At-match"):
                at = self.places[at][1]
            if at:
                return ".".join(["c", self.places[at][2][1], "is"] + segs[3:])
        if plain(segs[0]) == plain(old) and new:
            callee = self.key(self.places[here][3] or "")
            rest = segs[1:]
            fields = dict(self.places[here][4])
            if new.startswith("if-") and rest and rest[0] in ("taken", "left"):
                rest = [{"taken": "true", "left": "false"}[rest[0]]] + rest[1:]
            if rest and re.fullmatch(r"keys\d*", rest[0]):
                rest = ["is"] + rest[1:]
            if rest and rest[0] in fields:
                rest = [fields[rest[0]]] + rest[1:]
            if rest and rest[0] == "ensures":
                rest = rest[:1] + self.label(callee, "ensures", rest[1:])
            if rest[:1] == ["auto"] and rest[1:2] and rest[1].isdigit():
                lent = self.clauses.get(callee if self.places[here][3] else self.crate + "::" + self.fn, {}).get("lent", [])
                if int(rest[1]) < len(lent):
                    rest = ["auto", lent[int(rest[1])]] + rest[2:]
            return ".".join(["c", new] + rest)
        if here == "Start" or segs[0] in ("requires", "args", "ranges"):
            rest = segs
            if rest[0] == "requires":
                rest = rest[:1] + self.label(self.crate + "::" + self.fn, "requires", rest[1:])
            return ".".join(["c"] + rest)
        if segs[0] in ("type_inv", "auto"):
            return ".".join(["c"] + segs)
        self.say("%s at %s (%s)" % (match.group(0), here, old))
        return ".".join(["c"] + segs)

    def record(self, place):
        """A step's record, for a lemma over it."""
        new = dict(zip([p[0] for p in self.names["places"]], self.names["places_by_name"]))[place]
        self.cited.add(new)
        if self.goal is None:
            steps, at = 0, self.here
            while at and at != place:
                steps, at = steps + 1, self.places[at][1]
            return "c" + ".before" * steps
        return "(goal.at.%s c).%s" % (self.goal, new)

    def body(self, text, place, goal=None):
        self.goal, self.here = goal, place
        for name, over in self.over.items():
            cite = re.compile(r"(?<![\w.'-])%s (c(?:\.before)*)(?![\w.'-])" % re.escape(name))
            if goal:
                new = dict(zip([p[0] for p in self.names["places"]], self.names["places_by_name"]))[over]
                if cite.search(text):
                    self.cited.add(new)
                text = cite.sub(lambda m: "%s (goal.at.%s c).%s" % (name, goal, new), text)
        while True:
            alias = re.search(r"let ([A-Za-z0-9_']+) = (c(?:\.before)+(?:\.requires|\.\w+\.ensures)?) in\s*", text)
            if not alias:
                break
            text = text[: alias.start()] + text[alias.end():]
            text = re.sub(r"(?<![\w.'])%s(?![\w'])" % re.escape(alias.group(1)), alias.group(2), text)
        text = BARE.sub(lambda m: m.group(0) if text[: m.start()].endswith("goal.at.%s " % goal) or text[m.end():m.end() + 2].strip(" ")[:1] in (":", "=") else self.record(place) if not re.match(r"\.[A-Za-z0-9]", text[m.end():]) else m.group(0), text)
        text = PATH.sub(lambda m: self.path(m, place), text)
        for old, new in self.goals.items():
            if re.fullmatch(r"[\w'-]+", old):
                text = re.sub(r"(?<![\w.'-])%s(?![\w'-])" % re.escape(old), new, text)
        return text

    def turn(self, text):
        if "tie.spec" not in text:
            self.say("by hand")
            return None
        pieces = blocks(text)
        spec = [b for b in pieces if re.search(r"\btie\.close\b", b)]
        if len(spec) != 1:
            self.say("no spec")
            return None
        opens = re.search(r"^unfolding [^\n]*\n", spec[0], re.M)
        self.opens = opens.group(0) if opens else ""
        inner = spec[0][spec[0].index("tie.spec") + len("tie.spec"):].strip()
        args = arguments(inner[: inner.rindex(")")])
        loops = self.names["loops"]
        defs, uses, helpers, top = {}, [], [], []
        for b in pieces:
            if b is spec[0]:
                continue
            lines = b.split("\n")
            code = [x for x in lines if not x.startswith("--")]
            comment = [x for x in lines if x.startswith("--")]
            if code and re.match(r"(pub )?use ", code[0]):
                top += comment
                uses += [x for x in code if x.strip()]
                continue
            if not any(x.strip() for x in code):
                top += comment
                continue
            m = re.match(r"(?:abbrev |pub |unfoldable )*(\S+) : tie\.(\S+)", "\n".join(code))
            if m and not re.search(r":.*→", code[0]):
                defs[m.group(1)] = (m.group(2), comment, code)
            else:
                helpers.append(b)
        for b in helpers:
            over = re.search(r"^(?:abbrev |pub )*(\S+) : (?:\(\w+ : tie\.([\w-]+)[^)]*\)|tie\.([\w-]+) →)", b, re.M)
            if over:
                old = [p for p in self.names["places"] if plain(p[0]) == plain(over.group(2) or over.group(3))]
                if old:
                    self.over[over.group(1)] = old[0][0]
                else:
                    self.say("no place %s" % (over.group(2) or over.group(3)))
        helpers = [self.helper(b) for b in helpers]
        invariants, answers, used = [], [], set()
        n_inv = 0
        # invariants and measures stand first
        for arg in list(args):
            if arg in defs and re.match(r"(invariant|decreases)[_-]", defs[arg][0]):
                n_inv += 1
            else:
                break
        # an inline one
        rest = args[n_inv:]
        needs = self.names["needs"]
        for arg in args[:n_inv]:
            kind, comment, code = defs[arg]
            invariants.append("\n".join(comment + self.invariant(arg, kind, code)))
            used.add(arg)
        if len(rest) != len(needs):
            self.say("%d arguments for %d goals: %s" % (len(rest), len(needs), [n[0] for n in needs]))
            return self.by_name(rest, needs, defs, used, top, uses, helpers, invariants)
        self.goals = {arg: need[1] for arg, need in zip(rest, needs) if arg in defs}
        for arg, need, asked in zip(rest, needs, self.names["asked_at"]):
            self.answer(arg, need[1], asked[0], defs, used, answers)
        return top, uses, helpers, invariants, answers

    def helper(self, text):
        if re.search(r": tie\.Start →", text):
            self.cited.add("Start")
            return text.replace("tie.Start", "Start")
        over = re.search(r"\(c : tie\.([\w-]+)[^)]*\)", text)
        if not over:
            return text
        old = [p for p in self.names["places"] if plain(p[0]) == plain(over.group(1))]
        if not old:
            self.say("no place %s" % over.group(1))
            return text
        index = self.names["places"].index(old[0])
        head, code = text[: over.start()], text[over.end():]
        new = self.names["places_by_name"][index]
        self.cited.add(new)
        return head + "(c : %s)" % new + self.body(code, old[0][0])

    def by_name(self, rest, needs, defs, used, top, uses, helpers, invariants):
        """By the names of the goals, where their number has changed."""
        answers = []
        strip = lambda w: re.sub(r"^overflow_", "", plain(w))
        known = {strip(n[0]): (n[1], a[0]) for n, a in zip(needs, self.names["asked_at"])}
        for name, (kind, comment, code) in defs.items():
            if name in used:
                continue
            key = strip(re.sub(r"^Need[-_]", "", kind))
            if key in known:
                self.answer(name, known[key][0], known[key][1], defs, used, answers)
            else:
                self.say("no goal for %s" % kind)
        return top, uses, helpers, invariants, answers

    def answer(self, arg, goal, place, defs, used, answers):
        if arg in defs:
            kind, comment, code = defs[arg]
            used.add(arg)
            out = list(comment) + ["pub %s : goal.%s" % (goal, goal)]
            for x in code[1:]:
                x = re.sub(r"^%s c κs\b" % re.escape(arg), "%s c" % arg, x)
                x = re.sub(r"^%s\b" % re.escape(arg), goal, x)
                out.append(x)
            text = "\n".join(out[len(comment) + 1:])
            if re.fullmatch(re.escape(goal) + r" c =\s*search rules\s*", text):
                return
            head, eq, rest = text.partition("=")
            rest = self.named(self.body(rest, place, goal), goal)
            answers.append("\n".join(out[: len(comment) + 1]) + "\n" + head + eq + rest)
            return
        m = re.fullmatch(r"\(λ c(?: κs)?\.\s*(.*)\)", arg, re.S)
        if not m:
            if re.fullmatch(r"[\w'-]+", arg):
                self.say("an argument that is no answer: %s" % arg)
            else:
                self.say("an argument: %s" % arg)
            return
        if m.group(1).strip() == "search rules":
            return
        rest = self.named(self.body(m.group(1), place, goal), goal)
        answers.append("pub %s : goal.%s\n%s%s c = %s" % (goal, goal, self.opens, goal, rest))

    def named(self, text, goal):
        """A pair at the end as a record with the clauses' names, where the goal has several."""
        if goal.startswith("returns"):
            names = self.clauses.get(self.crate + "::" + self.fn, {}).get("ensures", [])
        elif "requires" in goal:
            step = [p for p in self.names["places"] if p[2][1] and goal.startswith(p[2][1] + "-requires") or p[3] and goal.startswith(p[3].split("::")[-1] + "-")]
            fns = {self.key(p[3]) for p in step if p[3]}
            if len(fns) != 1:
                return text
            names = self.clauses.get(fns.pop(), {}).get("requires", [])
        else:
            return text
        end = text.rstrip()
        if len(names) < 2 or not all(names) or not end.endswith(")"):
            return text
        depth, at = 0, len(end) - 1
        while at >= 0:
            depth += {")": 1, "(": -1}.get(end[at], 0)
            if depth == 0:
                break
            at -= 1
        parts = pieces(end[at + 1 : -1])
        while 1 < len(parts) < len(names) and parts[-1].startswith("(") and parts[-1].endswith(")"):
            more = pieces(parts[-1][1:-1])
            if len(more) < 2:
                break
            parts = parts[:-1] + more
        if len(parts) != len(names):
            return text
        return end[:at] + "record { " + "; ".join("%s = %s" % (n, x.strip()) for n, x in zip(names, parts)) + " }"

    def invariant(self, name, kind, code):
        which = re.match(r"(invariant|decreases)[_-](.*)", kind)
        loop = None
        for (old, new), variables in self.names["loops"]:
            if plain(old) == plain(which.group(2).split()[0]):
                loop = (new, variables)
        index = [plain(l[0][0]) for l in self.names["loops"]].index(plain(which.group(2).split()[0])) if loop else None
        if loop is None:
            self.say("no loop %s" % kind)
            return code
        changed = self.names["changed"][index]
        new = which.group(1) + "-" + loop[0]
        text = "\n".join(code[1:])
        pre = ""
        m = re.match(r"((?:unfolding[^\n]*\n)?)%s ([^=]*)=(.*)" % re.escape(name), text, re.S)
        args = m.group(2).split()
        to = {}
        vs = loop[1]
        order = [(v, c, True) for v, c in zip(vs, changed)] + [(v, c, False) for v, c in zip(vs, changed) if c]
        if len(args) != len(order):
            self.say("%s takes %s, and the loop has %s" % (name, args, vs))
        for a, (v, c, first) in zip(args, order):
            to[a] = ("l.initial.%s" if c and first else "l.%s") % v
        body = m.group(3)
        body = re.sub(r"(?<![\w.'₀])([A-Za-z_][\w'₀-₉]*)", lambda w: to.get(w.group(1), w.group(1)), body)
        body = re.sub(r"\(to_z w\d+ (l\.[\w.]+)\)|to_z w\d+ (l\.[\w.]+)", lambda w: w.group(1) or w.group(2), body)
        return ["abbrev pub %s : goal.%s" % (new, new), "%s%s l =%s" % (m.group(1), new, body)]


def wanted(uses, text):
    out = []
    for use in uses:
        m = re.match(r"((?:pub )?use [^\s{]+)\.\{([^}]*)\}", use)
        if not m:
            out.append(use)
            continue
        words = [w.strip() for w in m.group(2).split(",")]
        kept = []
        for w in words:
            key = w.split(" as ")[-1].strip()
            parts = [p for p in key.split("◌") if p]
            if all(re.search(r"(?<![\w'-])%s(?![\w'-])" % re.escape(p) if re.match(r"\w", p) else re.escape(p), text) for p in parts):
                kept.append(w)
        if kept:
            out.append("%s.{%s}" % (m.group(1), ", ".join(kept)))
    return out


def main():
    names = json.load(open(sys.argv[1]))
    crate, only = sys.argv[2], sys.argv[3:]
    root = os.path.join("crates", crate, "proofs")
    sources = [os.path.join(f, n) for f, _, ns in os.walk("crates") if "/out" not in f for n in ns if n.endswith(".rt")]
    own = [s for s in sources if s.startswith("crates/%s/" % crate)]
    clauses = clauses_of(own + sources)
    for folder, dirs, files in sorted(os.walk(root)):
        if "Proof.antt" not in files:
            continue
        rel = os.path.relpath(folder, root)
        if only and rel not in only:
            continue
        key = "Rattle-%s-proofs.%s.Lts" % (crate, rel.replace("/", "."))
        if key not in names:
            print("%s: %s: no names" % (crate, rel))
            continue
        text = open(os.path.join(folder, "Proof.antt"), encoding="utf-8").read()
        turn = Turn(crate, rel, names[key], clauses)
        try:
            done = turn.turn(text)
        except Exception as e:  # a form that was not thought of
            turn.say("failed: %r" % e)
            done = None
        for s in turn.said:
            print("%s: %s: %s" % (crate, rel, s))
        if done is None:
            continue
        top, uses, helpers, invariants, answers = done
        uses = [u for u in uses if ".Statement." not in u and not u.endswith(".Tie as tie")]
        module = "Rattle.%s.proofs.%s" % (crate, rel.replace("/", "."))
        comment = "\n".join(top) + "\n" if top else ""
        os.remove(os.path.join(folder, "Proof.antt"))
        shared = []
        if invariants:
            body = "\n\n".join(invariants)
            more = True
            while more:
                more = False
                for h in list(helpers):
                    name = re.search(r"^(?:abbrev |unfoldable |pub )*([^\s:({-][^\s:({]*) :", h, re.M)
                    if name and re.search(r"(?<![\w.'-])%s(?![\w'-])" % re.escape(name.group(1)), body):
                        helpers.remove(h)
                        if not re.search(r"^(abbrev |unfoldable )?pub ", h, re.M):
                            h = re.sub(r"^(abbrev |unfoldable )?(?=%s :)" % re.escape(name.group(1)), lambda m: (m.group(1) or "") + "pub ", h, count=1, flags=re.M)
                        body = h + "\n\n" + body
                        shared.append(name.group(1))
                        more = True
            lines = wanted(uses, body) + ["use %s.Given as goal" % module]
            open(os.path.join(folder, "Invariants.antt"), "w", encoding="utf-8").write(
                (comment if not answers else "") + "\n".join(lines) + "\n\n" + body + "\n")
        if answers:
            body = "\n\n".join(helpers + answers)
            lines = wanted(uses, body) + ["use %s.Goals as goal" % module]
            if turn.cited:
                lines.append("use %s.Goals.{%s}" % (module, ", ".join(sorted(turn.cited))))
            cited = [s for s in shared if re.search(r"(?<![\w.'-])%s(?![\w'-])" % re.escape(s), body)]
            if cited:
                lines.append("use %s.Invariants.{%s}" % (module, ", ".join(cited)))
            open(os.path.join(folder, "Answers.antt"), "w", encoding="utf-8").write(comment + "\n".join(lines) + "\n\n" + body + "\n")


main()

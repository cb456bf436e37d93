#!/usr/bin/env python3
"""Turns each Proof.antt of a crate, which walks the code by hand, into Invariants.antt and Answers.antt.

usage: tools/answers.py CRATE_FOLDER NAMES.json [FUNCTION..]

NAMES.json is what `rt check --generated FOLDER --old-names` writes in the crate. A need that `search rules` met is left out, the check finds it by itself.
What it cannot turn it prints.
"""

import json
import os
import re
import sys

CUT = r"\s(){}\[\].,;\"@"
NAME = re.compile(rf"[^{CUT}]+")
alike = lambda n: re.sub(r"[-_]", "", re.sub(r"_lem$", "", n)).lower()


def items(text):
    """The top-level pieces of a file: (kind, name, lines)."""
    out, kept = [], []
    lines = text.rstrip("\n").split("\n")
    k = 0
    while k < len(lines):
        line = lines[k]
        if not line.strip():
            k += 1
            continue
        if line.startswith("--"):
            kept.append(line)
            k += 1
            continue
        piece = [line]
        k += 1
        while k < len(lines) and (lines[k][:1] in (" ", "\t") or not lines[k].strip()):
            piece.append(lines[k])
            k += 1
        while not piece[-1].strip():
            piece.pop()
        out.append((kept, piece))
        kept = []
    return out


def gather(pieces):
    """Joins a signature, its unfolding lines and its clauses."""
    out = []
    for notes, piece in pieces:
        first = piece[0]
        if first.startswith("use "):
            out.append(["use", first, notes, piece])
            continue
        m = re.match(r"((?:abbrev |pub |unfoldable )*)(\S+)( :|$)", first)
        if first.startswith(("record ", "data ", "module ", "pub record ", "pub data ", "ruleset", "pub ruleset", "mutual", "open ")):
            out.append(["block", first, notes, piece])
        elif m and m.group(3) == " :":
            out.append(["def", m.group(2), notes, piece, [], []])
        elif first.startswith("unfolding"):
            out[-1][4] += piece
        else:
            if out[-1][0] != "def":
                out.append(["block", first, notes, piece])
            else:
                out[-1][5].append(piece)
    return out


class Turn:
    def __init__(self, crate, path, facts):
        self.crate, self.path, self.facts = crate, path, facts
        self.places = facts["places"]
        self.at = {p[0]: i for i, p in enumerate(self.places)}
        self.said = []

    def chain(self, place):
        out = []
        while place:
            i = self.at[place]
            out.append(i)
            place = self.places[i][1]
        return out

    def table(self, place):
        """What a step is called, and where the parts of an arm stand, for a need at a place."""
        steps, arms, fields = {}, {}, {}
        for i in reversed(self.chain(place)):
            p = self.places[i]
            steps[alike(p[2][0])] = p[2][1]
            for a, b in p[4] or []:
                fields[(alike(p[2][0]), a)] = b
            names = self.facts["params"].get(p[3]) or []
            for k, name in enumerate(names):
                fields[(alike(p[2][0]), f"auto.{k}")] = f"auto.{name}"
            arm = self.facts["arms"][i]
            if arm:
                for new, step, path in arm[2]:
                    arms[(alike(step), ".".join(path))] = f"{arm[0]}.{new}"
        return steps, arms, fields

    def step(self, words, table):
        """words: the names after c, with no 'before'. Returns the new words."""
        steps, arms, fields = table
        if not words:
            return ["c"]
        first, rest = words[0], words[1:]
        if first in ("args", "requires", "ranges", "auto", "type_inv", "utf8", "lifetimes", "well_formed"):
            return ["c", first] + rest
        for n in range(len(rest), -1, -1):
            hit = arms.get((alike(first), ".".join(rest[:n])))
            if hit and n:
                return ["c"] + hit.split(".") + rest[n:]
        new = steps.get(alike(first))
        if new is None:
            same = {v for k, v in steps.items() if re.sub(r"\d+$", "", k) == re.sub(r"\d+$", "", alike(first))}
            new = same.pop() if len(same) == 1 else None
        if new is None:
            self.said.append(f"no step {first}")
            return ["c", first] + rest
        if rest and (alike(first), rest[0]) in fields:
            rest = [fields[(alike(first), rest[0])]] + rest[1:]
        if len(rest) > 1 and (alike(first), ".".join(rest[:2])) in fields:
            rest = fields[(alike(first), ".".join(rest[:2]))].split(".") + rest[2:]
        if rest and re.match(r"keys\d*$", rest[0]) and new.startswith("in"):
            rest = [f"{new}-own"] + rest
        return ["c", new] + rest

    def body(self, text, place):
        table = self.table(place)
        contexts = {"c"}
        # a name for an earlier place
        pattern = re.compile(rf"let (\S+) = ([^{CUT}]+)((?:\.before)+) in\s*")
        while True:
            m = next((m for m in pattern.finditer(text) if m.group(2) in contexts), None)
            if not m:
                break
            contexts.add(m.group(1))
            text = text[: m.start()] + text[m.end() :]

        def path(m):
            words = m.group(0).split(".")
            if words[0] not in contexts:
                return m.group(0)
            words = [w for w in words[1:] if w != "before"]
            return ".".join(self.step(words, table))

        text = re.sub(rf"(?<![\w.'])[^{CUT}]+(?:\.[^{CUT}]+)*", path, text)
        text = re.sub(rf"\(?\bnot-(true|false) _ (c\.[^\s()]+\.\1)-raw\)?", lambda m: m.group(2) if m.group(0).startswith("(") and m.group(0).endswith(")") else m.group(0), text)
        return text

    def run(self):
        old = os.path.join(self.path, "Proof.antt")
        parts = gather(items(open(old, encoding="utf-8").read()))
        needs = {alike(a): (b, self.facts["asked_at"][i][0]) for i, (a, b) in enumerate(self.facts["needs"])}
        loops = {}
        for i, (names, variables) in enumerate(self.facts["loops"]):
            loops[names[0]] = (names[1], variables, self.facts["changed"][i])
        header = parts[0][2] if parts else []
        answers, helpers, invariants, uses = [], [], [], []
        named, order = {}, []
        for it in parts:
            if it[0] == "use":
                uses.append(it[1] if len(it[3]) == 1 else " ".join(l.strip() for l in it[3]))
                continue
            if it[0] == "block":
                helpers.append("\n".join(it[2] + it[3]))
                continue
            kind, name, notes, signature, opened, clauses = it
            types = " ".join(l.strip() for l in signature)
            m = re.search(r"tie\.Need-(\S+)", types)
            if "tie.invariant" in types or "tie.decreases" in types:
                invariants.append((name, notes, clauses))
            elif m:
                named[name] = (m.group(1), notes, opened, clauses)
            elif alike(name).endswith("spec") and "statement" in types:
                whole = " ".join(l.strip() for p in clauses for l in p)
                inner = whole[whole.index("tie.spec") + 8 :]
                depth, word = 0, ""
                for ch in inner:
                    if ch == "(":
                        depth += 1
                    if ch == ")":
                        depth -= 1
                        if depth < 0:
                            break
                    if ch == " " and depth == 0:
                        order.append(word)
                        word = ""
                    else:
                        word += ch
                order.append(word)
                order = [w for w in order if w]
            else:
                helpers.append("\n".join(notes + signature + opened + [l for p in clauses for l in p]))
        order = [w for w in order if not re.match(r"(invariant|decreases)", w)]
        if len(order) != len(self.facts["needs"]):
            self.said.append(f"{len(order)} needs before, {len(self.facts['needs'])} now")
        # an answer that stands in the theorem itself goes by its place
        if len(order) == len(self.facts["needs"]):
            for i, w in enumerate(order):
                if w.startswith("("):
                    m = re.match(r"\(λ (.*?)\. (.*)\)$", w)
                    if m and m.group(2).strip() != "search rules":
                        named[f"at {i}"] = (self.facts["needs"][i][0], [], [], [[f"x {m.group(1)} = {m.group(2)}"]])
        for name, (need, notes, opened, clauses) in named.items():
            if alike(need) not in needs and alike(need).startswith("overflow"):
                need = alike(need)[8:]
            if alike(need) not in needs:
                text = " ".join(l.strip() for p in clauses for l in p)
                if not text.endswith("= search rules"):
                    self.said.append(f"no need {need}: {text[:200]}")
                continue
            new, place = needs[alike(need)]
            first = clauses[0][0]
            m = re.match(r"\S+ ([^=]*)= ?(.*)$", first)
            binders = " ".join(["c"] + [b for b in m.group(1).split()[1:] if b != "κs"])
            body = "\n".join([m.group(2)] + clauses[0][1:])
            if len(clauses) > 1:
                self.said.append(f"{name}: more than one clause")
            if body.strip() == "search rules" and not opened:
                continue
            body = self.body(body, place).strip("\n")
            lines = notes + [f"pub {new} : goal.{new}"] + opened
            if "\n" in body or len(body) > 120:
                lines += [f"{new} {binders} ="] + (["    " + body.lstrip()] if not body.startswith("\n") and "\n" not in body else [("    " + l.strip()) if i == 0 and l.strip() else l for i, l in enumerate(body.split("\n"))])
            else:
                lines += [f"{new} {binders} = {body.strip()}"]
            answers.append("\n".join(l for l in lines if l.strip()))
        if invariants:
            given = []
            for name, notes, clauses in invariants:
                m = re.match(r"(invariant|decreases)-(.*)$", name)
                loop = loops.get(m.group(2)) or (list(loops.values())[0] if len(loops) == 1 else None)
                if loop is None:
                    self.said.append(f"no loop {name}")
                    continue
                label, variables, changed = loop
                first = clauses[0][0]
                mm = re.match(r"\S+ ([^=]*)= ?(.*)$", first)
                binders = mm.group(1).split()
                at = [v for v in variables]
                now = [v for v, c in zip(variables, changed) if c]
                if len(binders) != len(at) + len(now):
                    self.said.append(f"{name}: {binders} for {variables} {changed}")
                put = {}
                for i, b in enumerate(binders):
                    if i < len(at):
                        put[b] = ("l." if not changed[i] else "l.initial.") + at[i]
                    elif i - len(at) < len(now):
                        put[b] = "l." + now[i - len(at)]
                body = "\n".join([mm.group(2)] + clauses[0][1:])
                body = re.sub(rf"(?<![\w.'])[^{CUT}]+", lambda w: put.get(w.group(0), w.group(0)), body)
                given.append("\n".join(notes + [f"abbrev pub {m.group(1)}-{label} : goal.{m.group(1)}-{label}", f"{m.group(1)}-{label} l = {body.strip()}"]))
            self.out("Invariants.antt", header, uses, given, [], "Given")
        if answers:
            self.out("Answers.antt", header, uses, helpers + answers, helpers, "Goals")
        os.remove(old)
        for s in self.said:
            print(f"{os.path.relpath(self.path, self.crate)}: {s}")

    def out(self, file, header, uses, pieces, helpers, module):
        text = "\n\n".join(pieces)
        text = text.replace(".type-inv", ".type_inv")
        words = set(NAME.findall(text)) | set(re.findall(r"[^\s(){}\[\],;\"@]+", text))
        kept = []
        for u in uses:
            if re.search(r"\.(Statement|Tie)( as|\.\{)", u):
                continue
            m = re.match(r"use (\S+?)\.\{(.*)\}$", u)
            if m:
                names = [n.strip() for n in m.group(2).split(",")]
                used = []
                for n in names:
                    short = re.split(r" as ", n)[-1].split(".")[-1]
                    plain = re.sub("◌", "", short)
                    if short in words or short == "[]" and "[]" in text or short.startswith("◌") and plain in words or "◌" in short and any(p in words for p in short.split("◌") if p):
                        used.append(n)
                if used:
                    kept.append(f"use {m.group(1)}.{{{', '.join(used)}}}")
            else:
                m = re.match(r"use \S+ as (\S+)$", u)
                if not m or any(w.startswith(m.group(1) + ".") for w in words) or m.group(1) in words:
                    kept.append(u)
        where = os.path.relpath(self.path, os.path.join(self.crate, "proofs")).replace("/", ".")
        crate = os.path.basename(os.path.abspath(self.crate))
        kept.append(f"use Rattle.{crate}.proofs.{where}.{module} as goal")
        with open(os.path.join(self.path, file), "w", encoding="utf-8") as f:
            f.write("\n".join(header + kept) + "\n\n" + text + "\n")


def main():
    crate = sys.argv[1]
    facts = json.load(open(sys.argv[2]))
    only = sys.argv[3:]
    for key, value in facts.items():
        m = re.match(r"Rattle-\w+-proofs\.(.*)\.Lts$", key)
        if not m:
            continue
        path = os.path.join(crate, "proofs", m.group(1).replace(".", "/"))
        if os.path.exists(os.path.join(path, "Proof.antt")) and (not only or m.group(1) in only):
            try:
                Turn(crate, path, value).run()
            except Exception as e:
                print(f"{path}: {type(e).__name__} {e}")


main()

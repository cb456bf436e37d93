#!/usr/bin/env python3
"""Brings the repository's own definitions and lemmas to the spelling of today's Rattle: words in snake case, a dash only between two names.

usage: tools/respell.py     at the top of the repository, once, right after port.py

    markAt, firstMarker, nextId  ->  mark_at, first_marker, next_id
    length-bytesOf, by-next      ->  length-bytes_of, by_next

It renames what the files of specs/ and proofs/ declare: definitions, lemmas, fields, constructors of antt's own data, names bound inside a proof. Names of
the library, names that Rattle makes (those of a Proof.antt's needs) and names of src/ stay. In a .rt file it turns `ghost use` items, clauses and
comments; in docs/ what stands between backticks. A second run changes nothing. It stops where two names would fall together.
"""

import collections
import difflib
import glob
import re
import subprocess
import sys

CUT = r"\s(){}\[\].,;\"@"
TOKEN = re.compile(rf"[^{CUT}]+")
DECLARED = re.compile(
    rf"(?:^|[\s(|{{\[])(?:(?:abbrev|pub|unfoldable|record|data|ruleset|let|λ) +)*([^{CUT}:=|λ]+)(?= +[:=] | *:$| : )"
)
# a binder names several, as in (x yOf : ℕ) or λ xOf y.
BOUND = re.compile(rf"[({{]([^(){{}}:=]+) : |λ ([^.()]+)\.|λ \(([^():]+) :")
# names of one word that the library has, which a lemma's name joins by a dash
LIBRARY_WORDS = set(
    "length take drop map append get_or set sum zip min max add sub mul div mod rem filter replicate reverse cons snoc nil refl"
    " zero suc leb ltb eqb xor pow concat".split()
)
# what a need, an invariant or a measure of a Proof.antt is called, and its theorem
MADE = re.compile(r"^(invariant|decreases)-|(-requires|-result)(-\d+)?$|^(returns|loop-\w+)(-\d+)?$")

# lemmas that port.py wrote as their function is written now
LEMMAS = "all_read goes_on goes_over held_fits same_area table_step".split()
# fields of records of specs/, whose names may be a function's
FIELDS = {"count_cells", "search_id", "space_record", "count_key_data"}


def read(path):
    with open(path, encoding="utf-8", newline="") as it:
        return it.read()


def write(path, text):
    with open(path, "w", encoding="utf-8", newline="") as it:
        it.write(text)


def bare(text):
    """The text of an antt file without its comments."""
    return "\n".join(re.sub(r"(^|\s)--.*", "", line) for line in text.split("\n"))


def declared(text):
    found = set()
    for line in bare(text).split("\n"):
        for m in DECLARED.finditer(line):
            found.add(m.group(1))
        for m in BOUND.finditer(line):
            for names in m.groups():
                found |= set((names or "").split())
    return {n for n in found if re.match(r"^[A-Za-zα-ωΑ-Ω]", n)}


def snake(name):
    name = name.replace("R0", "_r0_") if re.search(r"[a-z]R0|^R0[A-Z]", name) else name
    name = re.sub(r"(?<=[a-z0-9])(?=[A-Z])", "_", name)
    if "_" in name:
        name = re.sub(r"(?<=[a-z]{2})(?=[0-9]{2})", "_", name)
    name = re.sub("_+", "_", name).strip("_").lower()
    return name.replace("get_d", "get_or")


def odd(name):
    """Whether a name has the older spelling."""
    if "′" in name or re.search(r"[A-Za-z0-9₀-₉']-[A-Za-z0-9]", name):
        return True
    return not name[0].isupper() and bool(re.search(r"[a-z0-9][A-Z]", name))


def main():
    antt = sorted(glob.glob("crates/*/specs/**/*.antt", recursive=True) + glob.glob("crates/*/proofs/**/*.antt", recursive=True))
    texts = {f: read(f) for f in antt}
    own, defined, brought = collections.Counter(), set(), set()
    for f, t in texts.items():
        names = declared(t)
        own.update(names)
        if "/specs/" in f:
            for line in bare(t).split("\n"):
                m = re.match(r"^(?:abbrev |unfoldable )?(?:pub )?(?:record |data )?(\S+) :", line)
                if m:
                    defined.add(m.group(1))
        for m in re.finditer(r"^use ([^\s{]+?)\.?\{([^}]*)\}", t, re.M):
            if not re.match(r"Rattle\.(?!std\.|core\.)", m.group(1)):
                for name in m.group(2).split(","):
                    brought |= set(re.split(r"\s+as\s+", name.strip())[:1])
    part = lambda p: snake(p) if not p[:1].isupper() else p
    words = LIBRARY_WORDS | {part(n) for n in defined} | {n for n in defined if n[0].isupper()}

    def respelled(name):
        parts = [part(p) for p in name.replace("′", "'").split("-")]
        out = parts[0]
        for i in range(1, len(parts)):
            left = any("_".join(parts[k:i]) in words for k in range(i))
            right = any("_".join(parts[i:k]) in words for k in range(i + 1, len(parts) + 1))
            out += ("-" if left and right else "_") + parts[i]
        return out

    # a lemma that would have its function's name gets _lem
    clash = {respelled(n) for n in own if odd(n) and "-" not in n} & {respelled(n) for n in own if "-" in n} - FIELDS
    table = {n: n + "_lem" for n in LEMMAS}
    for name in sorted(own):
        if not odd(name) or name in brought or MADE.search(name):
            continue
        new = respelled(name)
        if "-" in name and (new in clash or new in ("count_first", "low_bytes")):
            new += "_lem"
        if new != name:
            table[name] = new
    # port.py wrote the names that fell together with the library's in snake case throughout: a lemma on get_or has its name again
    for name in sorted(own):
        if name.startswith("get_d_"):
            table[name] = respelled("get_or-" + name[6:])
    back = collections.defaultdict(set)
    for old, new in table.items():
        back[new].add(old)
    for new, olds in sorted(back.items()):
        if len(olds) > 1 or new in own or new in brought:
            print(f"together: {sorted(olds)} -> {new}" + (" (there is one already)" if new in own else "") + (" (of the library)" if new in brought else ""))
    if "--table" in sys.argv:
        for old, new in sorted(table.items()):
            print(old, new)
        return

    turn = lambda text, names: TOKEN.sub(lambda m: names.get(m.group(0), m.group(0)), text)
    camel = {old: new for old, new in table.items() if re.search(r"[a-z0-9][A-Z]", old)}

    def comment(text):
        # a dash in a comment is mostly English
        return re.sub(r"`[^`]*`", lambda m: turn(m.group(0).replace("`", " ` "), table).replace(" ` ", "`"), turn(text, camel))

    for f, t in texts.items():
        out = []
        for line in t.split("\n"):
            m = re.match(r"^((?:(?!--).)*?)((?:^|(?<=\s))--.*)?$", line)
            code, tail = m.group(1), m.group(2) or ""
            out.append(turn(code, table) + comment(tail))
        write(f, "\n".join(out))
    for f in sorted(glob.glob("crates/*/src/**/*.rt", recursive=True)):
        out, clause = [], False
        for line in read(f).split("\n"):
            clause = bool(re.match(r"^\s*(requires|ensures)", line)) or clause and line.strip() != "{"
            if clause or re.match(r"^\s*ghost (use |\w+:)", line):
                out.append(turn(line, table))
            elif re.search(r"//", line):
                at = line.index("//")
                out.append(line[:at] + comment(line[at:]))
            else:
                out.append(line)
        write(f, "\n".join(out))
    for f in sorted(glob.glob("docs/*.md") + ["README.md"]):
        write(f, re.sub(r"`[^`\n]*`", lambda m: re.sub(r"[^\s`.:,(){}]+", lambda w: table.get(w.group(0), w.group(0)), m.group(0)), read(f)))
    edits(table)


def projected(text):
    """A line with its projections written tight: f (x .a) and g y .b become f x.a and (g y).b."""
    parts = re.findall(r"\s+|[(){},;]|[^\s(){},;]+", text)
    apart = re.compile(r"^([≡×→↔⊎+*/%^<≤=:|↦∙◌∷-]+|\+\+|elim|as|in|let|λ|\w*\.|.*[^\w'₀-₉.].*|pub|[,;{}])$")

    def spine(k):
        """Reads from part k to the ')' that ends it: the text, and where it ends."""
        out, atoms, gap = [], [], ""
        def flush():
            nonlocal atoms
            if atoms:
                out.append(" ".join(atoms))
            atoms = []
        while k < len(parts) and parts[k] != ")":
            it = parts[k]
            if it.isspace():
                gap = it
                k += 1
                continue
            if it == "(":
                inner, k = spine(k + 1)
                alone = re.fullmatch(r"[\w']+(\.[\w']+)+|\([^()]*\)(\.[\w']+)+", inner)
                it = inner if alone else "(" + inner + ")"
                if atoms or not out and not gap:
                    atoms.append(it)
                else:
                    out.append(gap)
                    atoms.append(it)
            elif re.fullmatch(r"(\.[a-z0-9_]\w*)+", it) and atoms:
                atoms = [(atoms[0] if len(atoms) == 1 else "(" + " ".join(atoms) + ")") + it]
            elif apart.match(it) and not re.fullmatch(r"[\w'.]+", it) or it in ("elim", "as", "in", "let", "λ", "pub"):
                flush()
                out.append(gap + it)
            elif atoms:
                atoms.append(it)
            else:
                out.append(gap)
                atoms.append(it)
            gap = ""
            k += 1
        flush()
        return "".join(out) + gap, k

    text, k = spine(0)
    return text + "".join(parts[k:])


def edits(table):
    """Brings each edit over: its words as the same words of the text came to be written, by port.py and above."""
    landed = lambda path: subprocess.run(["git", "show", "HEAD:" + path], capture_output=True, text=True).stdout
    words = collections.defaultdict(collections.Counter)
    cut = re.compile(rf"[^{CUT}]+")
    plain = lambda text: projected(text) if re.search(r" \.[a-z0-9]", text) else text
    for f in glob.glob("crates/*/specs/**/*.antt", recursive=True):
        old, new = plain(bare(landed(f))).split("\n"), bare(read(f)).split("\n")
        for kind, i, j, k, l in difflib.SequenceMatcher(None, old, new, autojunk=False).get_opcodes():
            if kind == "replace" and j - i == l - k:
                for a, b in zip(old[i:j], new[k:l]):
                    a, b = cut.findall(a), cut.findall(b)
                    if len(a) == len(b) and not (a and a[0] == "use"):
                        for x, y in zip(a, b):
                            words[x][y] += 1
            elif kind == "equal":
                for a in old[i:j]:
                    for x in cut.findall(a):
                        words[x][x] += 1
    best = {w: c.most_common(1)[0][0] for w, c in words.items()}
    for path in sorted(glob.glob("crates/*/must-fail/*.edit") + glob.glob("crates/*/more-edits/*.edit")):
        crate = path.split("/must-fail/")[0].split("/more-edits/")[0]
        out, text = [], None
        for line in read(path).split("\n"):
            m = re.match(r"(file|old|new): (.*)$", line)
            if m and m.group(1) == "file":
                name = m.group(2)
                text = read(f"{crate}/{name}")
            elif m:
                said = m.group(2)
                if name.endswith(".antt"):
                    turned = cut.sub(lambda w: best.get(w.group(0)) or table.get(w.group(0), w.group(0)), plain(said))
                else:
                    turned = said
                if m.group(1) == "old":
                    if text.count(turned) != 1:
                        print(f"edit: {path}: {text.count(turned)} times: {turned}")
                    was = turned
                else:
                    text = text.replace(was, turned) if text.count(was) == 1 else text
                line = f"{m.group(1)}: {turned}"
            out.append(line)
        write(path, "\n".join(out))


main()

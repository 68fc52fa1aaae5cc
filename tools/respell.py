#!/usr/bin/env python3
"""Brings the names that this repository's definitions and lemmas declare to the spelling of today's
Rattle: words in snake case, with `_`; types and modules keep their capitals; a prime is `'`.

usage: python3 tools/respell.py [--list]      at the top of the repository, once, after the kit's port.py

Functions of src/, exported C names, strings, inputs and outputs keep their names, and so does every
name that the libraries declare. A name that a new spelling would meet in the same scope keeps its
dash and is listed as 'kept:'. Names in must-fail edits and in the pages, there in backquotes, go along.
"""

import collections
import os
import re
import sys

NAME = r"[^\s(){}.;,@\"«»:`\[\]]+"
TOKEN = re.compile(rf"(?<![^\s(){{}}.;,@\"«»:`\[\]]){NAME}")
# Where the kit's script has given a lemma the spelling of its function, or a name means two things.
FORCED = {
    "clear_of": "clear_of_lem",
    "clearOf": "clear_of",
    "found_map": "found_map_lem",
    "foundMap": "found_map",
    "gap_at": "gap_at_lem",
    "gapAt": "gap_at",
    "same_outcome": "same_outcome_lem",
    "sameOutcome": "same_outcome",
    "keptOf": "kept_of",
    "inUse": "in_use_of",
    "bit-and": "bit_and_lem",
    "bit-or": "bit_or_lem",
    "field-of": "field_of_lem",
    "bytesOf": "bytes_of",
    "is-blank": "is_blank",
    "lines-drive": "lines_drive",
    "marker-of": "marker_of",
    "numeralEnd": "numeral_end",
    "rowBytes": "row_bytes",
    "row-bytes": "row_bytes_lem",
    "stepTo": "step_to",
}
KEYWORDS = set("abbrev axiom data else elim for if in let module open pattern pub record rewrite rw then unfolding unfoldable use where with as is".split())


def files(root, *ends):
    for folder, dirs, names in os.walk(root):
        dirs[:] = sorted(d for d in dirs if d not in ("out", "target", ".git"))
        for name in sorted(names):
            if name.endswith(ends):
                yield os.path.join(folder, name)


def code(line):
    """The line up to its comment, and the comment."""
    at = re.search(r"(^|\s)--(?=\s|$)", line)
    return (line[: at.start()], line[at.start() :]) if at else (line, "")


DECLARED = re.compile(r"^\s*(?:(?:pub|abbrev|unfoldable|pattern)\s+)*(record\s+|data\s+)?((?:%s)(?:\s+(?:%s))*)((?:\s*[({][^(){}]*(?:[({][^(){}]*[)}][^(){}]*)*[)}])*)\s+:(?:\s|$)" % (NAME, NAME))


def declared(path):
    """The names that a file declares: definitions, lemmas, fields and constructors."""
    with open(path, encoding="utf-8") as f:
        for line in f:
            line = code(line.rstrip("\n"))[0]
            if re.match(r"\s*(use|open|let|in|module|where|→|λ)\b", line):
                continue
            m = DECLARED.match(line)
            if m:
                for name in m[2].split():
                    yield name, bool(m[1])


def spelled(name):
    new = name.replace("′", "'")
    if new[0].isupper():
        return new
    new = re.sub(r"(?<=[a-z0-9])([A-Z])", lambda m: "_" + m[1].lower(), new)
    return new.replace("-", "_")


def is_proof(path):
    return bool(re.search(r"/proofs/(.*/)?(Proof|Answers|Invariants)\.antt$", path))


def main(argv):
    antt = list(files("crates", ".antt"))
    rt = list(files("crates", ".rt"))
    texts = {p: open(p, encoding="utf-8").read() for p in antt + rt}
    own, local = collections.defaultdict(set), collections.defaultdict(set)
    for p in antt:
        for name, _ in declared(p):
            (local[p] if is_proof(p) else own[name]).add(name if is_proof(p) else p)
    # Names that a library lends, by the imports whose path is none of this repository's crates.
    crates = set(os.listdir("crates"))
    lent = set()
    for p, t in texts.items():
        for m in re.finditer(r"use ([A-Za-z][\w.·]*?)\.\{([^}]*)\}", t):
            steps = m[1].split(".")
            if steps[0] == "Rattle" and len(steps) > 1 and steps[1] in crates:
                continue
            lent |= {n.strip().split(" as ")[0] for n in m[2].split(",")}
    tokens = {p: set(TOKEN.findall("\n".join(code(l)[0] for l in t.split("\n")))) for p, t in texts.items()}
    antt_files = set(antt)
    bound = {}
    for p in rt:
        bound[p] = set(re.findall(r"\blet (?:mut )?(\w+)", texts[p])) | set(re.findall(r"(?:\(|, |^ +)(\w+): ", texts[p], re.M))
    turned, kept = {}, []
    news = collections.defaultdict(set)
    for name in sorted(own):
        if name in lent:
            continue
        new = spelled(name)
        if new != name:
            news[new].add(name)
    def taken(name, new):
        """Why a name can't be spelled so, or nothing."""
        if new in KEYWORDS:
            return "a word of the language"
        if new in own:
            return f"{new} is declared in {sorted(own[new])[0]}"
        for p in antt + rt:
            if name in tokens[p] and (new in tokens[p] if p in antt_files else new in bound[p]):
                return f"{new} stands in {p} beside it"
        return ""

    turned.update(FORCED)
    for new, olds in sorted(news.items()):
        # Of a function and its lemma the function has the name, and the lemma's ends in _lem.
        for name in sorted(set(olds) - set(FORCED), key=lambda n: "-" in n):
            at = new + "_lem" if new in turned.values() else new
            why = taken(name, at)
            if why and not at.endswith("_lem") and "-" in name and new in own:
                at = new + "_lem"
                why = taken(name, at)
            if why:
                kept.append((name, new, why))
            else:
                turned[name] = at
    if "--list" in argv:
        for name, new, why in kept:
            print(f"kept: {name} ({new}): {why}")
        for name, new in sorted(turned.items()):
            if new.endswith("_lem"):
                print(f"lemma: {name} {new}")
        print(f"{len(turned)} names turned, {len(kept)} kept")
        return 0

    def turn(text, but=()):
        return TOKEN.sub(lambda m: turned.get(m[0], m[0]) if m[0] not in but else m[0], text)

    def quoted(text):
        return re.sub(r"`([^`\n]*)`", lambda m: m[0] if "/" in m[1] or "." in m[1] else "`" + turn(m[1]) + "`", text)

    for p in antt:
        out = []
        for line in texts[p].split("\n"):
            a, b = code(line)
            out.append(turn(a, local[p]) + quoted(b))
        texts[p] = "\n".join(out)
    for p in rt:
        out, clause = [], False
        for line in texts[p].split("\n"):
            if re.match(r"\s*//", line):
                out.append(quoted(line))
                continue
            if re.match(r"\s*(ghost|requires|ensures|invariant)\b", line):
                clause = True
            out.append(turn(line) if clause else line)
            if clause and re.search(r"[;}]\s*$", line):
                clause = False
        texts[p] = "\n".join(out)
    for p in antt + rt:
        with open(p, "w", encoding="utf-8") as f:
            f.write(texts[p])
    for p in list(files("crates", ".edit")):
        t = open(p, encoding="utf-8").read()
        out = []
        for line in t.split("\n"):
            if line.startswith(("old: ", "new:")):
                out.append(line[:5] + turn(line[5:]))
            elif line.startswith("file: "):
                out.append(line)
            else:
                out.append(re.sub(r"(?<![\w-])[a-z]+[-\w′']*[\w′'](?![\w-])", lambda m: turned.get(m[0], m[0]) if ("-" in m[0] and own_lemma(m[0])) or re.search("[a-z][A-Z]", m[0]) else m[0], line))
        open(p, "w", encoding="utf-8").write("\n".join(out))
    for p in ["README.md"] + list(files("docs", ".md")):
        t = open(p, encoding="utf-8").read()
        open(p, "w", encoding="utf-8").write(quoted(t))
    print(f"{len(turned)} names turned, {len(kept)} kept")
    return 0


PLAIN = set("east-west north-south one-way sixteen-bit each-way".split())


def own_lemma(name):
    return name not in PLAIN


if __name__ == "__main__":
    raise SystemExit(main(sys.argv[1:]))

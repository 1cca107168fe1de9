#!/usr/bin/env python3
"""Respells this repository's own names after port.py: functions, lemmas and fields in snake case, types and modules as they are.

usage: python3 tools/respell.py [--list]      at the top of the repository

    completePaths, firstThat   ->  complete_paths, first_that
    task-bounds, some-e        ->  task_bounds, some_e
    length-countFrom           ->  length-count_from   (a dash stays between two names)

It reads every .antt file for what is declared there, and rewrites .antt files, the clauses and imports of .rt files, and the names that comments cite.
Names of the source, of the library and of the proofs that the check makes stay, and so do strings. It lays the files out by rt fmt. Run it once; --list
prints the names and writes nothing. It stops, with nothing written, where two names would fall together or a new name stands in a file already.
"""

import collections
import os
import re
import subprocess
import sys

W = r"[^\s(){}.;,@\"«»\[\]\\]+"
TOKEN = re.compile(r"(?P<string>\"(?:[^\"\\\n]|\\.)*\")|(?P<note>(?<![^\s(){}\[\],;])--[^\n]*)|(?P<word>" + W + ")")
RUST = re.compile(r"(?P<string>b?\"(?:[^\"\\]|\\.)*\")|(?P<note>//[^\n]*)|(?P<word>[A-Za-z_][\w'-]*)")
HEAD = re.compile(r"^(\s*)((?:(?:abbrev|pub|opaque|unfoldable|private)\s+)*)(" + W + r")(?:\s+\{[^}]*\})*\s*:\s*(\S*)")
DATA = re.compile(r"^\s*(?:pub )?(?:data|record)\s+(" + W + ")")
USE = re.compile(r"(?m)^\s*(?:pub )?use (\S+?)\.\{([^{}]*)\}")
# Words of the library that lemmas of this repository are named after.
WORDS = set("length append take drop map get_or set replicate reverse sum min max sub mul suc sets write leb ltb eqb".split())
KEYWORDS = set("use mod pub abbrev record data where let in elim λ unfolding as module open infixl infixr infix".split())


def files(end):
    for folder, dirs, names in os.walk("crates"):
        dirs[:] = sorted(d for d in dirs if d not in ("out", "must-fail"))
        for n in sorted(names):
            if n.endswith(end):
                yield os.path.join(folder, n)


def of_function(path):
    """Says whether the file is the proof of one function."""
    return os.path.basename(path) in ("Proof.antt", "Answers.antt", "Invariants.antt") and "/proofs/" in path and os.path.dirname(path).split("/proofs")[1] != ""


def read(path):
    with open(path, encoding="utf-8") as f:
        return f.read()


def declared():
    """Returns the names that the repository declares, each with the kinds of its declarations: top, field or local."""
    found = collections.defaultdict(set)
    for path in files(".antt"):
        body = of_function(path)
        inside = None
        lines = read(path).split("\n")
        for line, below in zip(lines, lines[1:] + [""]):
            m = DATA.match(line)
            if m:
                inside = "field"
                found[m.group(1)].add("top")
                continue
            if line and not line[0].isspace():
                inside = None
            m = HEAD.match(line)
            if not m or m.group(3) in KEYWORDS or m.group(3).startswith("--"):
                continue
            # A goal or an invariant of the function, under its older name.
            if body and re.search(r"(?:^|[\s(])(?:tie|[\w+-]*lts)\.", line + (below if line.rstrip().endswith((":", "→")) else "")):
                continue
            if body and m.group(3).endswith("-spec"):
                continue
            kind = "top" if not m.group(1) else (inside or "local")
            found[m.group(3)].add(kind)
    return found


def snake(part):
    if len(part) == 1 or part.isupper() or part[0].isupper():
        return part
    # getD is the library's get_or today.
    part = re.sub(r"\bgetD\b", "get_or", part)
    return re.sub(r"(?<=[a-z0-9'])[A-Z]|(?<=[A-Z])[A-Z](?=[a-z])", lambda m: "_" + m.group().lower(), part)


def spelled(name, names):
    parts = [snake(p) for p in name.split("-")]
    out = parts[0]
    for a, b in zip(parts, parts[1:]):
        out += ("-" if a in names and b in names and a and b else "_") + b
    return out


def table(found):
    """Returns the new spelling of each name. Where a lemma would have the name of a definition, it gets the ending _lem; two fields may share a name."""
    tops = {snake(n) for n, kinds in found.items() if "top" in kinds and "-" not in n and len(n) > 1} | WORDS
    tops |= {n for n, kinds in found.items() if "top" in kinds and len(n) == 1}
    new = {}
    for n in found:
        if not re.match(r"^[A-Za-z]", n):
            continue
        to = spelled(n, tops)
        if to != n:
            new[n] = to
    groups = collections.defaultdict(set)
    for n in found:
        groups[new.get(n, n)].add(n)
    for to, ns in groups.items():
        if len(ns) == 1 or all(found[n] == {"field"} for n in ns):
            continue
        # The definition was in camel case, or is in snake case beside a lemma with dashes.
        camel = [n for n in ns if re.search("[A-Z]", n) and "-" not in n]
        plain = [n for n in ns if n == to]
        keeps = camel[0] if camel else plain[0] if plain else None
        for n in ns:
            if n != keeps and "field" not in found[n]:
                new[n] = to + "_lem"
    return new


def imported(text):
    """Returns the names that a file takes from the library."""
    own = set(os.listdir("crates"))
    names = set()
    for m in USE.finditer(text):
        parts = m.group(1).split(".")
        if not (parts[0] == "Rattle" and len(parts) > 1 and parts[1] in own):
            names |= {x.strip().split(" as ")[-1] for x in m.group(2).split(",")}
    return names


def source_names():
    """Returns the names of functions, fields and variables of the source, with dashes, as older proofs spell them."""
    names = set()
    for path in files(".rt"):
        names |= {w.replace("_", "-") for w in re.findall(r"\b[a-z]\w*_\w*\b", read(path))}
    return names


def turned_note(text, new):
    return re.sub(r"[A-Za-z][\w']*(?:-[\w']+)*", lambda m: new.get(m.group(), m.group()) if re.search("[A-Z]", m.group()) else m.group(), text)


def turned_antt(path, text, new, found, source):
    body = of_function(path)
    kept = imported(text)

    def one(m):
        if m.group("string"):
            return m.group()
        if m.group("note"):
            return turned_note(m.group(), new)
        w = m.group("word")
        if w not in new or w in kept:
            return w
        after = m.start() > 0 and text[m.start() - 1] == "."
        if body and after and "-" in w and ("field" not in found[w] or w in source):
            return w
        if body and not after and re.search(r"(?m)^" + re.escape(w) + r"\s*:\s*(?:tie|[\w+-]*lts)\.", text):
            return w
        if body and "-" in w and re.search(r"(?m)^(?:abbrev )?" + re.escape(w) + r"\s*:\s*(?:tie|[\w+-]*lts)\.", text):
            return w
        return new[w]

    return TOKEN.sub(one, text)


def turned_rt(text, new):
    def one(m):
        if m.group("string"):
            return m.group()
        if m.group("note"):
            return turned_note(m.group(), new)
        w = m.group("word")
        if re.search("[A-Z]", w) and w in new:
            return new[w]
        line = text[text.rfind("\n", 0, m.start()) + 1 : m.start()]
        if "-" in w and w in new and re.match(r"\s*(?:ghost use|requires|ensures|ghost)\b", line):
            return new[w]
        return w

    return RUST.sub(one, text)


def words_of(text):
    text = re.sub(r"(?m)^\s*(?:pub )?use \S+?(?=\.\{| as |$)", "", text)
    return {m.group("word") for m in TOKEN.finditer(text) if m.group("word")}


def main(argv):
    found = declared()
    new = table(found)
    source = source_names()
    if argv == ["--list"]:
        for n in sorted(new):
            print(n, new[n], *sorted(found[n]))
        return 0
    clash = collections.defaultdict(set)
    for n in found:
        clash[new.get(n, n)].add(n)
    bad = []
    for to, ns in clash.items():
        if len(ns) > 1 and sum("field" not in found[n] for n in ns) > 1:
            bad.append(f"{' and '.join(n + ' (' + ', '.join(sorted(found[n])) + ')' for n in sorted(ns))} would be {to}")
    for path in files(".antt"):
        text = read(path)
        here = words_of(text)
        kept = imported(text) | ({n.replace("-", "_") for n in source} if of_function(path) else set())
        bad += [f"{path}: {new[w]} stands there already, beside {w}" for w in sorted(here) if w in new and w not in kept and new[w] not in kept and new[w] in here and new[w] not in new]
    if bad:
        print("\n".join(bad))
        return 1
    for path in files(".antt"):
        text = read(path)
        now = turned_antt(path, text, new, found, source)
        if now != text:
            with open(path, "w", encoding="utf-8") as f:
                f.write(now)
    for path in files(".rt"):
        text = read(path)
        now = turned_rt(text, new)
        if now != text:
            with open(path, "w", encoding="utf-8") as f:
                f.write(now)
    for crate in sorted(os.listdir("crates")):
        subprocess.run(["rt", "fmt"], cwd=os.path.join("crates", crate), check=False)
    return 0


if __name__ == "__main__":
    raise SystemExit(main(sys.argv[1:]))

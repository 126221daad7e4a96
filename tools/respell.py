#!/usr/bin/env python3
"""Brings the repository's own definitions and lemmas to today's spelling: `a-b` and `aB` become `a_b`.

usage: tools/respell.py [--check]      at the top of the repository, once, after port.py

It gathers what the .antt files below crates/ declare (definitions, lemmas, fields, constructors), and turns those words in .antt files, in
the clauses and `ghost use` items of .rt files, in .edit files, and in the pages. A word that a file takes from a library stays in that file;
a name that begins with a capital letter is a type or a module, and stays. Functions of src/, exported names, inputs and outputs are not
touched. It stops, and writes nothing, where two names would fall together.
"""
import collections
import glob
import os
import re
import sys

WORD = re.compile(r"[^\s(){}.;,@\"«»:`\[\]|/\\]+")
SIGN = re.compile(
    r"^\s*(?:\|\s*)?(?:abbrev |unfoldable )*(?:pub )?(?:abbrev |unfoldable )?([^\s(){}.;,@\"«»:|]+)"
    r"(?:\s+(?:\{[^\n]*?\}|\([^\n]*?\)))*\s*:(?=\s)", re.M)
FIELD = re.compile(r"[{;]\s*(?:pub )?([^\s(){}.;,@\"«»:|=]+)\s*:(?=\s)")
USE = re.compile(r"(?:ghost )?use\s+([^\s;{]+?)(?:\.\{([^}]*)\}|\s+as\s+(\S+?))?;?\s*(?:\n|$)")
OWN = sorted(os.listdir("crates"))


def snake(word):
    if word[0].isupper() or not re.search(r"[A-Za-z]", word) or "◌" in word:
        return word
    word = word.replace("getD", "get_or").replace("-", "_")
    word = re.sub(r"([a-z0-9])([A-Z])", r"\1_\2", word)
    return re.sub(r"[A-Z]+", lambda m: m[0].lower(), word)


def bare(text):
    return re.sub(r"--[^\n]*", "", text)


def is_own(path):
    return re.match(r"Rattle[.·](%s)[.·]" % "|".join(OWN), path + ".") is not None


def taken(text):
    """The words that a file takes from libraries."""
    out = set()
    for m in USE.finditer(text):
        if not is_own(m[1]) and m[2]:
            for item in m[2].split(","):
                out.update(item.split())
        elif not is_own(m[1]):
            out.add(m[1].split(".")[-1])
    return out


files = [f for f in glob.glob("crates/*/**/*.antt", recursive=True) if "/out/" not in f]
texts = {f: open(f, encoding="utf-8").read() for f in files}
declared = collections.Counter()
for f, t in texts.items():
    t = bare(t)
    for m in list(SIGN.finditer(t)) + list(FIELD.finditer(t)):
        declared[m[1]] += 1
table = {w: snake(w) for w in declared if snake(w) != w}
table["get_d_any"] = "get_or_any"
table |= {w: snake(w) for w in ("isExact", "okJobs", "okTasks", "ranIn", "isJob", "isConsistent")}  # bound in patterns and λ

# what falls together: of a definition and a law of one spelling the definition has the plain name
SPECIAL = {"all_pass": "each_passes", "at_none": "read_at_none"}
turned = collections.defaultdict(set)
for w, n in table.items():
    turned[n].add(w)
    if n in declared:
        turned[n].add(n)
for n, ws in turned.items():
    if len(ws) > 1 and n != "in_order":  # in_order: a field in one crate, a helper in another
        plain = [w for w in ws if "-" not in w]
        first = [w for w in plain if "_" not in w] or plain
        assert len(first) == 1, (n, ws)
        for w in ws - set(first):
            table[w] = SPECIAL.get(w, n + "_law")
clash = {w for w in table if list(table.values()).count(table[w]) > 1 and table[w] != "in_order"}
clash |= {w for w, n in table.items() if n in declared and n not in table and n != "in_order"}


def turn(text, keep=(), dotted=True):
    def one(m):
        if "-" not in m[0] and "_" in m[0] and text[m.end():m.end() + 1] == "." and text[m.start() - 1:m.start()] == ".":
            return m[0]  # a function's folder, in a path
        return table[m[0]] if m[0] in table and m[0] not in keep else m[0]

    return WORD.sub(one, text)


def turn_rt(text, keep):
    """The clauses and ghost items of a source file."""
    out, at = [], 0
    for m in re.finditer(r"ghost\s+use\b[^;]*;|(?:requires|ensures|invariant)\s*\*?\s*(?:\w+\s*)?\{|ghost\s*(?:\w+\s*(?::\s*)?)?\{", text):
        if m.start() < at:
            continue
        end = m.end()
        if text[end - 1] == "{":
            depth = 1
            while depth:
                depth += {"{": 1, "}": -1}.get(text[end], 0)
                end += 1
        out.append(text[at:m.start()])
        out.append(turn(text[m.start():end], keep))
        at = end
    out.append(text[at:])
    return "".join(out)


def turn_comments(text):
    return re.sub(r"(//|--)[^\n]*", lambda m: re.sub(r"`[^`\n]*`", lambda s: turn(s[0]), m[0]), text)


if __name__ == "__main__":
    bad = False
    for w in sorted(clash):
        print(f"falls together: {w} -> {table[w]}", sorted(turned[table[w]] - {w}) or "declared")
    # within one file: a word that is there already and would be met by another
    for f, t in texts.items():
        words = set(WORD.findall(bare(t)))
        for w in words & table.keys():
            if table[w] in words and table[w] not in table:
                print(f"meets in {f}: {w} -> {table[w]}")
    print(len(table), "names")
    if "--check" in sys.argv:
        sys.exit()
    changed = 0
    for f in (files + glob.glob("crates/*/src/**/*.rt", recursive=True) + glob.glob("crates/*/*/*.edit")
              + glob.glob("*.md") + glob.glob("docs/**/*.md", recursive=True) + glob.glob("crates/*/README.md") + glob.glob("examples/*.md")):
        t = open(f, encoding="utf-8").read()
        if f.endswith(".rt"):
            n = turn_comments(turn_rt(t, taken(t)))
        elif f.endswith(".antt"):
            n = turn(t, taken(t))
        elif f.endswith(".edit"):
            lines = t.split("\n")
            source = [l[5:].strip() for l in lines if l.startswith("file:")]
            n = turn(t) if any(s.endswith(".antt") for s in source) else "\n".join(
                re.sub(r"`[^`\n]*`", lambda s: turn(s[0]), l) if l.startswith("#") else turn_rt(l, ()) if "{ " in l and "ensures" in l else l for l in lines)
        else:
            n = re.sub(r"`[^`\n]+`", lambda s: turn(s[0]), t)
        if n != t:
            changed += 1
            open(f, "w", encoding="utf-8").write(n)
    print(changed, "files")

#!/usr/bin/env python3
"""Renames, in a crate's Proof.antt files, what the kit makes of the code: goals, places and fields.

usage: tools/mend_proofs.py NAMES_JSON CRATE      NAMES_JSON as `rt check --generated DIR --old-names` wrote it in the crate's folder

Old proofs cite `loop`, `if1`, `Need-returns-2`; today these are named after the source. Written for the port; a second run changes nothing.
"""
import json
import os
import re
import sys


def norm(s):
    return s.replace("_", "-")


def mend(text, d):
    needs, places, fields, inner = {}, {}, {}, {}
    for old, new in d["needs"]:
        for o in (old, "overflow-" + old):
            needs.setdefault(norm(o), new)
    for (old, before, field, _, own), new in zip(d["places"], d["places_by_name"]):
        places[norm(old)] = new
        if field and field[0]:
            fields.setdefault(norm(field[0]), field[1])
            for a, b in own:
                inner.setdefault(field[1], {})[a] = b
    loops = {norm(l[0][0]): l[0][1] for l in d["loops"]}

    def tie(m):
        w = m[1]
        if w.startswith("Need-"):
            return "tie.Need-" + needs.get(norm(w[5:]), w[5:])
        for head in ("invariant", "decreases"):
            if norm(w).startswith(head + "-") and norm(w[len(head) + 1:]) in loops:
                return f"tie.{head}-{loops[norm(w[len(head) + 1:])]}"
        return "tie." + places.get(norm(w), w)

    text = re.sub(r"\btie\.([A-Za-z][^\s(){}.;,@«»:\]]*)", tie, text)

    def path(m):
        parts = m[0].split(".")
        out = [parts[0]]
        for i, p in enumerate(parts[1:]):
            n = fields.get(norm(p))
            if n is not None:
                out.append(n)
            elif out[-1] in inner and p in inner[out[-1]]:
                out.append(inner[out[-1]][p])
            else:
                out.append(p)
        return ".".join(out)

    lines = []
    for line in text.split("\n"):
        if not line.startswith("use "):
            line = re.sub(r"(?<![\w.\-])[^\s(){}.;,@«»:\[\]←λ]+(?:\.[^\s(){}.;,@«»:\[\]]+)+", lambda m: m[0] if m[0].startswith("tie.") else path(m), line)
            line = re.sub(r"(?<=[)\w])(?:\.[^\s(){}.;,@«»:\[\]]+)+", lambda m: path(m) if line[max(0, m.start() - 1)] == ")" else m[0], line)
        lines.append(line)
    return "\n".join(lines)


if __name__ == "__main__":
    names = json.load(open(sys.argv[1], encoding="utf-8"))
    crate = sys.argv[2]
    for key, d in names.items():
        m = re.fullmatch(r"Rattle-(\w+)-proofs\.(.*)\.Lts", key)
        if not m or m[1] != os.path.basename(crate.rstrip("/")):
            continue
        f = os.path.join(crate, "proofs", *m[2].split("."), "Proof.antt")
        if not os.path.exists(f):
            continue
        t = open(f, encoding="utf-8").read()
        n = mend(t, d)
        if n != t:
            open(f, "w", encoding="utf-8").write(n)
            print(f)

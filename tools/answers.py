#!/usr/bin/env python3
"""Turns a crate's Proof.antt files, which answer by position, into Invariants.antt and Answers.antt, which answer by name.

usage: tools/answers.py NAMES_JSON CRATE [FUNCTION..]

NAMES_JSON is what `rt check --generated DIR --old-names` wrote in the crate's folder. Written for the port: an answer that is only a tactic
goes, since the check tries it itself; a lemma about a place of the code stands as a `let` where it is used. What it can't turn it says,
and leaves.
"""
import glob
import json
import os
import re
import sys

TRIVIAL = {"search rules", "refl", "omega arith", "(search rules)", "search (rules)"}


def norm(s):
    return s.replace("_", "-")


def closing(text, at):
    depth = 0
    for i in range(at, len(text)):
        depth += text[i] in "([{"
        depth -= text[i] in ")]}"
        if depth == 0:
            return i
    raise ValueError("unclosed")


def clauses():
    """Of each function, the names of its `requires` and of its `ensures`."""
    out = {}
    for f in glob.glob("crates/*/src/**/*.rt", recursive=True):
        crate = f.split(os.sep)[1]
        for m in re.finditer(r"\bfn (\w+)((?:(?!\bfn \w).)*)", open(f, encoding="utf-8").read(), re.S):
            out[(crate, m[1])] = tuple([n for n in re.findall(r"^\s+" + kind + r"\s+(\w+)\s*\{", m[2], re.M)] for kind in ("requires", "ensures"))
    return out


CLAUSES = clauses()


class Turn:
    def __init__(self, crate, path, d):
        self.crate, self.path, self.d = crate, path, d
        self.fields, self.inner, self.given, self.needs = {}, {}, {}, {}
        for old, new in d["needs"]:
            for o in (old, "overflow-" + old):
                self.needs.setdefault(norm(o), new)
        for (old, before, field, _, own), arm in zip(d["places"], d["arms"]):
            if field and field[0]:
                self.fields.setdefault(norm(field[0]), field[1])
                for a, b in own:
                    self.inner.setdefault(field[1], {})[a] = b
            if arm:
                for name, step, way in arm[2]:
                    self.given[(norm(step), tuple(way))] = f"{arm[0]}.{name}" if way else None
        for typed in d["typed"]:
            for var, step in typed:
                self.given.setdefault((norm(step), ("given",)), f"type_inv.{var}")

    def flat(self, text):
        """Paths without `.before`: today a goal's record has the steps of all places before it."""
        return re.sub(r"(?:\.before)+(?![\w'\-])", "", text)

    def names(self, text, root):
        """Today's fields, in the paths from the place."""
        def path(m):
            parts = m[0].split(".")
            out, i, step = [parts[0]], 1, ""
            while i < len(parts):
                p = parts[i]
                low = norm(p).replace("-law", "").replace("-lem", "")
                if low not in self.fields:
                    low = low.lower()
                if i == 1 and parts[0] == root:
                    hit = None
                    for n in range(len(parts), i, -1):
                        for key in (norm(p), low):
                            if n > i + 1 and (key, tuple(parts[i + 1:n])) in self.given:
                                hit = (n, self.given[(key, tuple(parts[i + 1:n]))])
                        if hit:
                            break
                    if hit:
                        out.append(hit[1])
                        i = hit[0]
                        continue
                    if p == "pre":
                        p = "requires"
                    p = self.fields.get(norm(p), self.fields.get(low, p))
                    step = p
                elif i == 2 and parts[0] == root:
                    if p == "inv":
                        p = "invariant"
                    elif p == "taken" and "if-" in step or p == "taken" and step.endswith("-test"):
                        p = "true"
                    elif p == "left" and "if-" in step or p == "left" and step.endswith("-test"):
                        p = "false"
                    elif p in self.inner.get(step, {}):
                        p = self.inner[step][p]
                    elif step == "requires" and p.isdigit() and len(self.own()[0]) > 1:
                        names, k = self.own()[0], 0
                        while k + 2 < len(names) and p == "1" and i + 1 < len(parts) and parts[i + 1].isdigit():
                            k, i = k + 1, i + 1
                            p = parts[i]
                        if k + int(p) < len(names):
                            p = names[k + int(p)]
                elif i == 3 and parts[0] == root and parts[2] == "ensures" and p.isdigit():
                    names = self.called(step)[1]
                    k = 0
                    while k + 2 < len(names) and p == "1" and i + 1 < len(parts) and parts[i + 1].isdigit():
                        k, i = k + 1, i + 1
                        p = parts[i]
                    if len(names) > 1 and k + int(p) < len(names):
                        p = names[k + int(p)]
                out.append(p)
                i += 1
            return ".".join(out)

        for a, b in self.d["args"]:
            a, b = a.split(".")[-1], b.split(".")[-1]
            if "-" not in a:
                text = re.sub(r"\." + re.escape(a) + r"(?![\w'\-])", "." + b, text)
        return re.sub(r"(?<![\w.\-'₀])[^\s(){}.;,@:\[\]←λ=]+(?:\.[^\s(){}.;,@:\[\]]+)+",
                      lambda m: m[0] if m[0].startswith("tie.") else path(m), text)

    def own(self):
        return CLAUSES.get((self.crate, self.path.split(".")[-1]), ([], []))

    def called(self, step):
        """The clauses of what the step calls."""
        for old, _, field, callee, _ in self.d["places"]:
            if callee and field[1] == step:
                return CLAUSES.get((callee.split("::")[0], callee.split("::")[-1]), ([], []))
        return ([], [])

    def record(self, need, b):
        """A tuple for clauses that have names is a record."""
        names = []
        for old, new in self.d["needs"]:
            if new == need:
                names = self.d["asked"].get(old, [])
        head = ""
        if len(names) > 1 and b.endswith(")"):
            depth = 0
            for i in range(len(b) - 1, -1, -1):
                depth += (b[i] in ")]}") - (b[i] in "([{")
                if depth == 0:
                    break
            if i and re.search(r"\bin\s*$", b[:i]):
                head, b = b[:i], b[i:]
        if len(names) > 1 and b.startswith("(") and closing(b, 0) == len(b) - 1:
            parts, k, depth = [], 1, 0
            for i in range(1, len(b)):
                if b[i] in "([{":
                    depth += 1
                elif b[i] in ")]}" and depth:
                    depth -= 1
                elif depth == 0 and (b[i] == "," or i == len(b) - 1):
                    if b[k:i].strip():
                        parts.append(b[k:i].strip())
                    k = i + 1
            while len(parts) < len(names) and parts[-1].startswith("(") and closing(parts[-1], 0) == len(parts[-1]) - 1:
                last, k, depth, inner = parts[-1], 1, 0, []
                for i in range(1, len(last)):
                    if last[i] in "([{":
                        depth += 1
                    elif last[i] in ")]}" and depth:
                        depth -= 1
                    elif depth == 0 and (last[i] == "," or i == len(last) - 1):
                        if last[k:i].strip():
                            inner.append(last[k:i].strip())
                        k = i + 1
                if len(inner) < 2:
                    break
                parts[-1:] = inner
            if len(parts) == len(names):
                return head + "record { " + "; ".join(f"{n} = {x}" for n, x in zip(names, parts)) + " }"
        return head + b

    def run(self, text):
        d = self.d
        head, uses, decls = [], [], []
        lines = text.rstrip("\n").split("\n")
        chunks, cur = [], []
        for line in lines:
            if line and not line[0].isspace() and not line.startswith((")", "]", "}")) and cur:
                chunks.append("\n".join(cur).rstrip())
                cur = []
            if line or cur:
                cur.append(line)
        chunks.append("\n".join(cur).rstrip())
        i = 0
        while i < len(chunks) and chunks[i].startswith("--"):
            head.append(chunks[i])
            i += 1
        items = {}
        order = []
        pending = []
        while i < len(chunks):
            c = chunks[i]
            if c.startswith("--"):
                pending.append(c)
            elif c.startswith("use "):
                uses.append(c)
            else:
                m = re.match(r"(?:abbrev )?(?:pub )?(?:abbrev )?(?:record |data )?([^\s:(]+)", c)
                name = m[1]
                if c.startswith(("record ", "pub record", "data ")) or re.match(r"(?:abbrev )?(?:pub )?\S+(?: [({].*)? :(?:\s|$)", c) and name not in items:
                    items[name] = {"sig": c, "unf": None, "defs": [], "com": pending}
                    order.append(name)
                    pending = []
                elif c.startswith("unfolding"):
                    items[order[-1]]["unf"] = c
                else:
                    items[order[-1]]["defs"].append(c)
            i += 1
        spec = order[-1]
        if not spec.endswith("_spec"):
            raise ValueError("no spec last: " + spec)
        body = items[spec]["defs"][0].split("=", 1)[1]
        specunf = items[spec]["unf"]
        m = re.search(r"tie\.close\s*\(\s*tie\.spec\b", body)
        if not m:
            if re.search(r"tie\.close\s+tie\.spec\b", body) or "tie.spec" in body:
                args = []
            else:
                raise ValueError("no tie.spec")
        else:
            start = body.index("(", m.start())
            inside = body[m.end():closing(body, start)]
            args, k = [], 0
            while k < len(inside):
                if inside[k].isspace():
                    k += 1
                elif inside[k] == "(":
                    e = closing(inside, k)
                    args.append(inside[k:e + 1])
                    k = e + 1
                else:
                    e = re.compile(r"\s|$").search(inside, k).start()
                    args.append(inside[k:e])
                    k = e
        loops = d["loops"]
        ninv = 0
        while ninv < len(args) and args[ninv] in items and re.search(r": tie\.(invariant|decreases)", items[args[ninv]]["sig"]):
            ninv += 1
        needs = [n for _, n in d["needs"]]
        if len(args) - ninv > len(needs):  # some goals are asked no longer: by name, else from the end
            kept = ["(λ c. search rules)"] * len(needs)
            for back, arg in enumerate(reversed(args[ninv:])):
                m = arg in items and re.search(r": tie\.Need-(\S+)", items[arg]["sig"])
                if m and self.needs.get(norm(m[1])) in needs:
                    kept[needs.index(self.needs[norm(m[1])])] = arg
                elif back < len(needs) and arg not in items:
                    kept[len(needs) - 1 - back] = arg
            args = args[:ninv] + kept
        if len(args) - ninv != len(needs):
            raise ValueError(f"{len(args) - ninv} answers for {len(needs)} goals: {needs}")

        # lemmas about a place
        about = {}
        for name in order[:-1]:
            s = items[name]["sig"]
            m = re.match(r"(?:abbrev )?" + re.escape(name) + r" :\s*\(([^\s:]+) : ([^()]*(?:\([^()]*\))?[^()]*)\)\s*→(.*)$", s, re.S)
            if m and ("tie." in m[2] or (m[2].strip() in items and "domain" in "".join(items[m[2].strip()]["defs"]))):
                dm = re.match(re.escape(name) + r"\s+(\S+)((?:\s+[^\s=]+)*)\s*=(.*)$", items[name]["defs"][0], re.S)
                about[name] = (m[1], m[3].strip(), dm[1], (f"λ{dm[2]}. " if dm[2].strip() else "") + dm[3].strip())
        places = {n for n in order if "domain" in "".join(items[n]["defs"]) or n == "domain"}

        def replaced(text, var, by):
            return re.sub(r"(?<![^\s(){}.;,@:\[\]←])" + re.escape(var) + r"(?![^\s(){}.;,@:\[\]])", by, text)

        def inline(text, seen=()):
            for name in about:
                while True:
                    m = re.search(r"(?<![^\s(){};,@:\[\]←])" + re.escape(name) + r"(?=\s)\s+(\(?[^\s(){};,\[\]]+\)?)", text)
                    if not m or name in seen:
                        break
                    arg = m[1].strip("()")
                    x, typ, y, b = about[name]
                    root = re.sub(r"(\.before)+$", "", arg)
                    t = inline(replaced(typ, x, root), seen + (name,))
                    bb = inline(replaced(b, y, root), seen + (name,))
                    flat = lambda s: re.sub(r"\n\s*", " ", s)
                    end = m.end(1) - (m[1].count(")") - m[1].count("(") if m[1].endswith(")") else 0)
                    text = text[:m.start()] + f"(let lemma_{name} : {flat(t)} = {flat(bb)} in lemma_{name})" + text[end:]
            return text

        answers = []
        used = set()
        for need, arg in zip(needs, args[ninv:]):
            if arg in items:
                it = items[arg]
                used.add(arg)
                dm = re.match(re.escape(arg) + r"((?:\s+[^\s=]+)*)\s*=(.*)$", it["defs"][0], re.S)
                if not dm or len(it["defs"]) != 1:
                    raise ValueError("form of " + arg)
                vs, b, unf, com = dm[1].split(), dm[2], it["unf"], it["com"]
            else:
                m = re.match(r"\(λ ([^.]*)\.(.*)\)$", arg, re.S)
                if not m:
                    raise ValueError("form of argument " + arg)
                vs, b, unf, com = m[1].split(), m[2], specunf, []
            b = b.strip()
            if re.sub(r"\s+", " ", b) in TRIVIAL and (not unf or "search" in b and not need.startswith(("returns", "loop"))):
                continue
            var = vs[0] if vs else "c"
            more = [v for v in vs[1:] if v != "κs"]
            b = self.flat(inline(b))
            while m := re.search(r"let (\S+) = " + re.escape(var) + r" in\s*", b):  # a name of the place itself
                b = b[:m.start()] + re.sub(r"(?<![^\s(){};,\[\]←])" + re.escape(m[1]) + (r"(?=\.| in\b)" if m[1] == "at" else r"(?![^\s(){}.;,\[\]]|\.\s)"), var, b[m.end():])
            while m := re.search(r"let (\S+) = (" + re.escape(var) + r"\.(?!args\b)[^\s().]+(?:\.(?:ensures|requires))?) in\s*", b):  # a step's, or its clauses'
                b = b[:m.start()] + re.sub(r"(?<![^\s(){};,\[\]←])" + re.escape(m[1]) + (r"(?=\.| in\b)" if m[1] == "at" else r"(?![^\s(){}.;,\[\]]|\.\s)"), m[2], b[m.end():])
            b = self.record(need, self.names(b, var))
            answers.append((need, com, unf, " ".join([var] + more), b))
        # local helpers that stay
        stay = [n for n in order[:-1] if n not in used and n not in args[:ninv] and n not in about and n not in places]
        inv = []
        for k in range(ninv):
            name = args[k]
            it = items[name]
            kind = "invariant" if "invariant" in re.search(r": tie\.(\w+)", it["sig"])[1] else "decreases"
            old = re.search(r": tie\.(?:invariant|decreases)[-_]([^\s]+)", it["sig"])[1]
            loop = [(l, ch) for l, ch in zip(loops, d["changed"]) if norm(l[0][0]) == norm(old)]
            if not loop:
                raise ValueError("loop " + old)
            ((lo, ln), vars_), changed = loop[0]
            dm = re.match(re.escape(name) + r"((?:\s+[^\s=]+)*)\s*=(.*)$", it["defs"][0], re.S)
            vs, b = dm[1].split(), dm[2].strip()
            vars_ = [dict((x.split(".")[-1], y.split(".")[-1]) for x, y in d["args"]).get(v, v) for v in vars_]
            want = len(vars_) + sum(changed)
            if len(vs) != want:
                raise ValueError(f"invariant of {old} has {len(vs)} variables for {vars_} {changed}")
            sub = {}
            for v, name_, ch in zip(vs, vars_, changed):
                sub[v] = f"l.initial.{name_}" if ch else f"l.{name_}"
            for v, name_ in zip(vs[len(vars_):], [n for n, ch in zip(vars_, changed) if ch]):
                sub[v] = f"l.{name_}"
            sub.pop("_", None)
            for m in list(re.finditer(r"λ (\w+)\. ", b))[::-1]:  # a binder that hides one of them
                if m[1] in sub:
                    end, depth = len(b), 0
                    for i in range(m.start(), len(b)):
                        depth += (b[i] in "([{") - (b[i] in ")]}")
                        if depth < 0:
                            end = i
                            break
                    b = b[:m.start()] + re.sub(r"(?<![\w.])" + re.escape(m[1]) + r"(?!\w)", m[1] * 2, b[m.start():end]) + b[end:]
            b = re.sub(r"(?<![^\s(){};,@:\[\]←.])([^\s(){}.;,@:\[\]]+)", lambda m: sub.get(m[0], m[0]) if m.start() == 0 or b[m.start() - 1] != "." else m[0], b)
            inv.append((f"{kind}-{ln}", it["unf"], b))
        return head, uses, stay, items, answers, inv

    def files(self, text):
        head, uses, stay, items, answers, inv = self.run(text)
        base = f"Rattle.{self.crate}.proofs.{self.path}"
        uses = [u for u in uses if ".Statement." not in u and ".Tie as" not in u]

        def imports(code, extra):
            words = set(re.findall(r"[^\s(){}.;,@:\[\]]+", code)) | set(re.findall(r"[^\s(){};,@:\[\]]+", code))
            out = []
            for u in uses:
                m = re.match(r"use (\S+?)\.\{(.*)\}$", u, re.S)
                if not m:
                    out.append(u)
                    continue
                keep = []
                for item in [x.strip() for x in m[2].split(",")]:
                    word = item.split(" as ")[-1].strip()
                    parts = [p for p in word.split("◌") if p]
                    if word in words or (("◌" in word) and all(p in words or p in code for p in parts)):
                        keep.append(item)
                if keep:
                    out.append(f"use {m[1]}.{{{', '.join(keep)}}}")
            return out + extra

        helper = []
        for n in stay:
            it = items[n]
            helper.append("\n".join(it["com"] + [it["sig"]] + ([it["unf"]] if it["unf"] else []) + it["defs"]))
        res = {}
        ans = []
        for need, com, unf, var, b in answers:
            sep = "\n    " if "\n" in b else " "
            ans.append("\n".join(com + [f"pub {need} : goal.{need}"] + ([unf] if unf else []) + [f"{need} {var} ={sep}{b}"]))
        invs = []
        for n, unf, b in inv:
            sep = "\n    " if "\n" in b else " "
            invs.append("\n".join([f"abbrev pub {n} : goal.{n}"] + ([unf] if unf else []) + [f"{n} l ={sep}{b}"]))
        if invs:
            code = "\n\n".join(invs)
            hs = [h for n, h in zip(stay, helper) if re.search(r"(?<![^\s(){}.;,])" + re.escape(n) + r"(?![^\s(){}.;,])", code)]
            code = "\n\n".join(hs + [code])
            res["Invariants.antt"] = "\n".join(head + imports(code, [f"use {base}.Given as goal"])) + "\n\n" + code + "\n"
        if ans:
            code = "\n\n".join(helper + ans)
            res["Answers.antt"] = "\n".join((head if not invs else []) + imports(code, [f"use {base}.Goals as goal"])) + "\n\n" + code + "\n"
        return res


if __name__ == "__main__":
    names = json.load(open(sys.argv[1], encoding="utf-8"))
    crate = sys.argv[2].rstrip("/")
    only = sys.argv[3:]
    for key, d in names.items():
        m = re.fullmatch(r"Rattle-(\w+)-proofs\.(.*)\.Lts", key)
        if not m or m[1] != os.path.basename(crate):
            continue
        folder = os.path.join(crate, "proofs", *m[2].split("."))
        f = os.path.join(folder, "Proof.antt")
        if not os.path.exists(f) or (only and m[2] not in only):
            continue
        try:
            res = Turn(m[1], m[2], d).files(open(f, encoding="utf-8").read())
        except Exception as e:
            print(f"left {f}: {type(e).__name__} {e}")
            continue
        os.remove(f)
        for n, t in res.items():
            open(os.path.join(folder, n), "w", encoding="utf-8").write(t)
        if not os.listdir(folder):
            os.rmdir(folder)
        print(f"{m[2]}: {', '.join(res) or 'nothing left'}")

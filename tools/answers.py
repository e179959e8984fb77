#!/usr/bin/env python3
"""Turns the Proof.antt files of a crate, written for an older Rattle, to Invariants.antt and Answers.antt.

usage: answers.py CRATE_FOLDER NAMES.json [FUNCTION_PATH..]
NAMES.json is what `rt check --generated DIR --old-names` writes in the crate. What it cannot turn it says, and leaves with the old
file in answers-left/CRATE of the system's folder for temporary files.
"""
import json
import os
import re
import sys
import tempfile

crate = os.path.abspath(sys.argv[1])
name = os.path.basename(crate)
names = json.load(open(sys.argv[2]))
only = set(sys.argv[3:])
LEFT = os.path.join(tempfile.gettempdir(), "answers-left", name)


def norm(s):
    s = re.sub(r"^(overflow|nonzero|bounds|slice_bounds|slice-bounds|offset_bounds)[-_]", "", s)
    s = re.sub(r"^(overflow|nonzero)[-_]", "", s)
    return s.replace("_", "-").replace("-lem", "")


def chunks(text):
    out, cur = [], []
    lines = text.split("\n")
    for i, l in enumerate(lines):
        if l == "" :
            nxt = next((x for x in lines[i + 1:] if x != ""), "")
            if cur and not (nxt[:1].isspace()):
                out.append("\n".join(cur))
                cur = []
            elif cur:
                cur.append("")
            continue
        cur.append(l)
    if cur:
        out.append("\n".join(cur))
    return [c.rstrip() for c in out]


def match_paren(s, i):
    d = 0
    while i < len(s):
        if s[i] in "({[":
            d += 1
        elif s[i] in ")}]":
            d -= 1
            if d == 0:
                return i
        i += 1
    return -1


def atoms(s):
    out, i = [], 0
    while i < len(s):
        if s[i].isspace():
            i += 1
        elif s[i] == "(":
            j = match_paren(s, i)
            out.append(s[i:j + 1])
            i = j + 1
        else:
            j = i
            while j < len(s) and not s[j].isspace() and s[j] not in "()":
                j += 1
            if j == i:
                i += 1
                continue
            out.append(s[i:j])
            i = j
    return out


def split_top(s, sep=","):
    out, d, last = [], 0, 0
    for i, ch in enumerate(s):
        if ch in "({[":
            d += 1
        elif ch in ")}]":
            d -= 1
        elif ch == sep and d == 0:
            out.append(s[last:i])
            last = i + 1
    out.append(s[last:])
    return [x.strip() for x in out if x.strip()]


FIELDS = {"type-inv": "type_inv", "well-formed": "well_formed"}
PATH = re.compile(r"(?<![\w.'-])([A-Za-z_][\w'-]*)((?:\.(?:[\w'→+-]+))+)?")


class Fn:
    def __init__(self, path, j):
        self.path, self.j = path, j
        self.places = {}
        for i, p in enumerate(j["places"]):
            arms = j["arms"][i] if i < len(j["arms"]) else None
            cl = j["clauses"][i] if i < len(j["clauses"]) else None
            self.places[p[0]] = dict(parent=p[1], old=p[2][0], new=p[2][1], name=j["places_by_name"][i] if i < len(j["places_by_name"]) else p[0], arms=arms, clauses=cl)
        self.needs = j["needs"]
        self.at = [a[0] for a in j["asked_at"]]
        self.notes = []

    def place(self, old):
        n = norm(old)
        for k in self.places:
            if norm(k) == n:
                return k
        return None

    def need(self, old):
        n = norm(old)
        for i, (o, new) in enumerate(self.needs):
            if norm(o) == n:
                return i
        return None

    def parent(self, p):
        return self.places[p]["parent"] if p in self.places else None

    def chain(self, frm, to):
        k, p = 0, frm
        while p is not None and p != to:
            p = self.parent(p)
            k += 1
        return k if p == to else None

    def clause(self, cl, rest):
        """.0, .1.0 .. after ensures or requires become the clause's name."""
        if not cl or not cl.get("fields"):
            return rest
        fs = cl["fields"]
        n = len(fs)
        i, rest = 0, list(rest)
        while rest and rest[0].isdigit():
            d = int(rest[0])
            if d == 0:
                return [fs[i]] + rest[1:]
            if d == 1 and i + 1 == n - 1:
                return [fs[i + 1]] + rest[1:]
            if d == 1 and len(rest) > 1 and rest[1].isdigit():
                i += 1
                rest = rest[1:]
                continue
            if d < n:
                return [fs[d]] + rest[1:]
            break
        return rest

    def resolve(self, place, fields):
        """The new path, from c, of fields read at a place; or ('place', P)."""
        p = place
        fs = list(fields)
        while fs and fs[0] == "before":
            q = self.parent(p)
            if q is None:
                self.notes.append(f"too many .before at {place}")
                return "c." + ".".join(fs)
            p, fs = q, fs[1:]
        if not fs:
            return ("place", p)
        fs = [FIELDS.get(x, x) for x in fs]
        f, rest = fs[0], fs[1:]
        info = self.places[p]
        # arms
        for k, inf in self.places.items():
            if inf["arms"]:
                new, _, parts = inf["arms"]
                best = None
                for field, oldstep, flds in parts:
                    if flds and norm(oldstep) == norm(f) and rest[:len(flds)] == [str(x) for x in flds]:
                        if best is None or len(flds) > len(best[1]):
                            best = (field, flds)
                if best and self.chain(place, k) is not None:
                    return ".".join(["c", new, best[0]] + rest[len(best[1]):])
        q = p
        while q is not None:
            info = self.places[q]
            if norm(info["old"]) == norm(f) and info["old"]:
                new = info["new"]
                if rest and rest[0] in ("ensures", "requires"):
                    rest = [rest[0]] + self.clause(info["clauses"], rest[1:])
                return ".".join(["c", new] + rest)
            q = self.parent(q)
        if f == "requires":
            rest = self.clause(self.j.get("pre"), rest)
        return ".".join(["c", f] + rest)


def rewrite(fn, body, aliases, top, helpers):
    """Rewrites the paths in a body. aliases: name -> place. top: the place of the goal's c."""
    out, i = [], 0
    body = re.sub(r"\b(search|grind) needs\b", r"\1 rules", body)
    # aliases of places
    while True:
        done = True
        for m in re.finditer(r"let ([\w'-]+) = ([A-Za-z_][\w'-]*)((?:\.before)*) in[ \n]*", body):
            nm, root, bef = m.groups()
            if root in aliases:
                r = fn.resolve(aliases[root], [x for x in bef.split(".") if x])
                if isinstance(r, tuple):
                    aliases[nm] = r[1]
                    body = body[:m.start()] + body[m.end():]
                    done = False
                    break
        if done:
            break

    def sub(m):
        root, tail = m.group(1), m.group(2) or ""
        if root not in aliases:
            return m.group(0)
        fields = [x for x in tail.split(".") if x]
        r = fn.resolve(aliases[root], fields)
        if isinstance(r, tuple):
            k = fn.chain(top, r[1])
            if k is None:
                fn.notes.append(f"no chain from {top} to {r[1]}")
                return m.group(0)
            return "c" + ".before" * k
        return r

    return PATH.sub(sub, body)


def as_record(fields, body):
    """The last expression of a body, a tuple, as a record of the clauses."""
    d, cut = 0, 0
    for m in re.finditer(r"[({\[]|[)}\]]|\bin\b", body):
        t = m.group(0)
        if t in "({[":
            d += 1
        elif t in ")}]":
            d -= 1
        elif d == 0:
            cut = m.end()
    head, last = body[:cut], body[cut:].strip()
    parts = None
    if last.startswith("(") and match_paren(last, 0) == len(last) - 1:
        parts = split_top(last[1:-1])
        while len(parts) < len(fields) and parts[-1].startswith("(") and match_paren(parts[-1], 0) == len(parts[-1]) - 1 and len(split_top(parts[-1][1:-1])) > 1:
            parts = parts[:-1] + split_top(parts[-1][1:-1])
        if len(parts) != len(fields):
            parts = None
    if parts:
        return head + " record {\n      " + ";\n      ".join(f"{f} = {p}" for f, p in zip(fields, parts)) + ";\n    }"
    m = re.match(r"(omega|search|grind|cc)\b", last)
    if m:
        return head + " record { " + "; ".join(f"{f} = {last}" for f in fields) + " }"
    m = re.match(r"rw (\((?:[^()]|\([^()]*\))*\)|\S+) \(", last)
    if m and match_paren(last, m.end() - 1) == len(last) - 1:
        inner = as_record(fields, " " + last[m.end() - 1:]).strip()
        mm = re.match(r"record \{(.*)\}$", inner, re.S)
        if mm and "all" not in mm.group(1):
            return head + " record {\n      " + ";\n      ".join(f"{x.split(' = ', 1)[0].strip()} = {last[:m.end() - 1]}({x.split(' = ', 1)[1].strip()})" for x in split_top(mm.group(1), ";")) + ";\n    }"
    ps = []
    for i in range(len(fields)):
        proj = ".1" * i + (".0" if i < len(fields) - 1 else "")
        ps.append(f"{fields[i]} = all{proj}")
    return head + f"\n    let all = {last} in record {{ " + "; ".join(ps) + " }"


def drop_params(t):
    """tie.Need-X inv dec -> the name alone"""
    return t.strip().split()[0]


def convert(path, j):
    fn = Fn(path, j)
    folder = os.path.join(crate, "proofs", *path)
    text = open(os.path.join(folder, "Proof.antt"), encoding="utf-8").read()
    head, uses, invs, helpers, needs, placed = [], [], [], [], [], {}
    final = None
    cs = chunks(text)
    order = []
    for c in cs:
        lines = c.split("\n")
        if any(l.startswith("use ") or l.startswith("pub use ") for l in lines):
            for l in lines:
                if l.startswith("--"):
                    head.append(l)
                elif l.startswith(("use ", "pub use ")):
                    uses.append(l)
            continue
        code = [l for l in lines if not l.startswith("--")]
        comment = [l for l in lines if l.startswith("--")]
        if not code:
            order.append(("comment", c))
            continue
        first = code[0]
        if re.match(r"pub \S+[-_]spec :", first):
            final = "\n".join(code)
        elif re.search(r": tie\.(invariant|decreases)", first):
            order.append(("inv", comment, code))
        elif re.search(r": tie\.Need-", first):
            order.append(("need", comment, code))
        elif re.search(r"\btie\.(After|Then|Else|At|In|Start)", c):
            order.append(("placed", comment, code))
        else:
            order.append(("plain", comment, code))
    invs_out, plain, ans, left = [], [], [], []
    answered = set()
    loops = {norm(o): (n, params) for ((o, n), params) in j["loops"]}
    changed = j["changed"]
    loop_names = [o for ((o, n), params) in j["loops"]]

    def do_inv(comment, code):
        sig = code[0]
        m = re.match(r"abbrev (?:pub )?(\S+) : tie\.(invariant|decreases)[-_]?(\S*)", sig)
        kind, old = m.group(2), m.group(3)
        key = norm(old) if old else None
        idx = next((i for i, o in enumerate(loop_names) if norm(o) == key), None)
        if idx is None:
            left.append("\n".join(comment + code))
            fn.notes.append(f"loop {old} not found")
            return
        new, params = j["loops"][idx][0][1], j["loops"][idx][1]
        ch = changed[idx] if idx < len(changed) else [False] * len(params)
        body = "\n".join(code[1:])
        unf = ""
        mm = re.match(r"(unfolding [^\n]*\n)", body)
        if mm:
            unf = mm.group(1)
            body = body[mm.end():]
        lhs, _, rhs = body.partition(" =")
        args = atoms(lhs)[1:]
        fixed_first = [p for p in params]
        want = len(params) + sum(bool(x) for x in ch)
        if len(args) != want:
            fn.notes.append(f"{m.group(1)}: {len(args)} arguments, and not {want}")
            left.append("\n".join(comment + code))
            return
        sub = {}
        for a, p, c in zip(args[:len(params)], params, ch):
            sub[a] = f"l.initial.{p}" if c else f"l.{p}"
        for a, p in zip(args[len(params):], [p for p, c in zip(params, ch) if c]):
            sub[a] = f"l.{p}"
        rhs = re.sub(r"(?<![\w.'₀-])([A-Za-z_][\w'₀-]*)", lambda k: sub.get(k.group(1), k.group(1)), rhs)
        nm = f"{kind}-{new}"
        invs_out.append("\n".join(comment) + ("\n" if comment else "") + f"abbrev pub {nm} : goal.{nm}\n{unf}{nm} l ={rhs}")

    def at_types(t):
        def sub(m):
            p = fn.place(m.group(1))
            if p is None:
                fn.notes.append(f"place {m.group(1)} not found")
                return m.group(0)
            return "goal." + fn.places[p]["name"]
        t = re.sub(r"tie\.((?:After|Then|Else|At|In|Start)[\w'-]*)(?: (?:invariant|decreases)[\w'-]*)*", sub, t)
        return t

    def do_need(label, i, comment, unf, params, body):
        old, new = fn.needs[i]
        place = fn.at[i] if i < len(fn.at) else None
        cname = params[0] if params else "c"
        b = rewrite(fn, body, {cname: place}, place, placed)
        asked = j["asked"].get(old)
        if asked and len(asked) > 1:
            b = as_record(asked, b)
        answered.add(i)
        ans.append((i, "\n".join(comment) + ("\n" if comment else "") + f"pub {new} : goal.{new}\n{unf}{new} c ={b}"))

    for it in order:
        if it[0] == "comment":
            plain.append(it[1])
        elif it[0] == "inv":
            do_inv(it[1], it[2])
        elif it[0] == "plain":
            plain.append("\n".join(it[1] + it[2]))
        elif it[0] == "need":
            comment, code = it[1], it[2]
            sig = code[0]
            k = 1
            m = re.match(r"(\S+) : tie\.Need-([\w'+→-]+)(.*)", sig)
            body = "\n".join(code[k:])
            unf = ""
            mm = re.match(r"(unfolding [^\n]*\n)", body)
            if mm:
                unf = mm.group(1)
                body = body[mm.end():]
            i = fn.need(m.group(2))
            lhs, _, rhs = body.partition(" =")
            if i is None:
                fn.notes.append(f"need {m.group(2)} not found")
                left.append("\n".join(comment + code))
                continue
            do_need(m.group(1), i, comment, unf, atoms(lhs)[1:], rhs)
        elif it[0] == "placed":
            comment, code = it[1], it[2]
            t = "\n".join(code)
            m = re.search(r"\(c : tie\.([\w'-]+)", t)
            if not m:
                fn.notes.append("a helper at a place: " + code[0][:80])
                left.append("\n".join(comment + code))
                continue
            place = fn.place(m.group(1))
            if place is None:
                fn.notes.append(f"place {m.group(1)} not found")
                left.append("\n".join(comment + code))
                continue
            t = at_types(t)
            # the header's c and the clauses' c
            t = rewrite(fn, t, {"c": place}, place, placed)
            ans.append((-1, "\n".join(comment) + ("\n" if comment else "") + t))
    if final:
        m = re.search(r"tie\.spec\b(.*)", final, re.S)
        if m:
            s = m.group(1)
            # the closing parenthesis of tie.close
            d = 0
            end = len(s)
            for i, ch in enumerate(s):
                if ch == "(":
                    d += 1
                elif ch == ")":
                    d -= 1
                    if d < 0:
                        end = i
                        break
            args = atoms(s[:end])
            n_inv = 2 * len(loop_names)
            inv_args, rest = [a for a in args if re.match(r"(invariant|decreases)", a)], [a for a in args if not re.match(r"(invariant|decreases)", a)]
            if len(rest) != len(fn.needs):
                fn.notes.append(f"tie.spec has {len(rest)} answers, and not {len(fn.needs)}")
                inline = [a for a in rest if a.startswith("(") and not re.fullmatch(r"\(λ c( κs)?\. (search|grind) (rules|needs)\)", a)]
                if inline:
                    left.append("-- inline: " + "\n".join(inline))
            else:
                for i, a in enumerate(rest):
                    if i in answered or not a.startswith("("):
                        continue
                    if re.fullmatch(r"\(λ c( κs)?\. (search|grind) (rules|needs)\)", a):
                        continue
                    mm = re.match(r"\(λ (c|_)( κs)?\. (.*)\)$", a, re.S)
                    if mm:
                        do_need("", i, [], "", ["c"], " " + mm.group(3))
                    else:
                        left.append(f"-- answer {i}: {a}")
        else:
            fn.notes.append("no tie.spec: a proof by hand?")
            left.append(final)
    mod = "Rattle." + name + ".proofs." + ".".join(path)
    uses = [u for u in uses if not re.search(r"\.(Statement|Tie)\b", u)]
    # helpers of invariants go to Invariants.antt
    inv_plain, ans_plain = [], []
    if invs_out:
        need_words = set(re.findall(r"[\w'-]+", "\n".join(invs_out)))
        changedflag = True
        chosen = set()
        while changedflag:
            changedflag = False
            for k, c in enumerate(plain):
                if k in chosen:
                    continue
                dm = re.search(r"^(?:abbrev |unfoldable |pub )*([\w'-]+) :", c, re.M)
                if dm and dm.group(1) in need_words and re.search(r"^(abbrev|unfoldable)", c, re.M):
                    chosen.add(k)
                    need_words |= set(re.findall(r"[\w'-]+", c))
                    changedflag = True
        exported = []
        for k, c in enumerate(plain):
            if k in chosen:
                c = re.sub(r"^(abbrev|unfoldable) (?!pub)", r"\1 pub ", c, flags=re.M)
                exported += re.findall(r"^(?:abbrev|unfoldable) pub ([\w'-]+) :", c, re.M)
                inv_plain.append(c)
            else:
                ans_plain.append(c)
        with open(os.path.join(folder, "Invariants.antt"), "w", encoding="utf-8") as f:
            f.write("\n".join(uses + [f"use {mod}.Given as goal"]) + "\n\n" + "\n\n".join(inv_plain + invs_out) + "\n")
        if exported:
            uses = uses + [f"use {mod}.Invariants.{{{', '.join(exported)}}}"]
    else:
        ans_plain = plain
    helpers_out = [t for i, t in ans if i == -1]
    needs_out = [t for i, t in ans if i != -1]
    if ans_plain or needs_out or helpers_out:
        body = ans_plain + helpers_out + needs_out
        with open(os.path.join(folder, "Answers.antt"), "w", encoding="utf-8") as f:
            f.write("\n".join([h for h in head if h.strip() != "-- Assumes nothing."] + uses + [f"use {mod}.Goals as goal"]) + "\n\n" + "\n\n".join(body) + "\n")
    os.makedirs(os.path.join(LEFT, *path), exist_ok=True)
    os.rename(os.path.join(folder, "Proof.antt"), os.path.join(LEFT, *path, "Proof.antt"))
    if left:
        with open(os.path.join(LEFT, *path, "left"), "w") as f:
            f.write("\n\n".join(left) + "\n")
    if not needs_out and not invs_out:
        # nothing to say: Rattle may find all alone
        for n in ("Answers.antt",):
            p = os.path.join(folder, n)
            if os.path.isfile(p) and not helpers_out:
                os.remove(p)
        try:
            os.rmdir(folder)
        except OSError:
            pass
    for n in fn.notes:
        print(".".join(path) + ": " + n)


def main():
    for key, j in names.items():
        m = re.match(r"Rattle-(\w+)-proofs\.(.*)\.Lts$", key)
        if not m or m.group(1) != name:
            print("skipped:", key)
            continue
        path = m.group(2).split(".")
        if only and ".".join(path) not in only:
            continue
        p = os.path.join(crate, "proofs", *path, "Proof.antt")
        if not os.path.isfile(p):
            continue
        if "tie.spec" not in open(p, encoding="utf-8").read():
            print(".".join(path) + ": by hand, left as it is")
            continue
        convert(path, j)


main()

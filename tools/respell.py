#!/usr/bin/env python3
"""Brings the names of this repository's definitions and lemmas to Rattle's spelling.

usage: python3 tools/respell.py        once, at the top of the checkout, right after the kit's port.py

Words are in snake case, types, facts and modules in camel case; a dash joins two names, and a plain word is joined by an
underscore (`firstDay-add-one` is `first_day-add_one`); a field of a record has no dash. Only names that a file of specs/ or a
file right in proofs/ defines are turned, everywhere they stand: in .antt files, in the clauses and comments of .rt files, in
must-fail edits and between the back quotes of the pages. Quoted text stays. Two names that would fall together are named, and
nothing is written then. With --map the names are printed, and no file changes.
"""
import os
import re
import sys

WORD = r"[A-Za-z0-9_'→≤<≡≢ℤℕ∷·*+-]"
TOKEN = re.compile(r"(?<![A-Za-z0-9_'→≤<≡≢ℤℕ·-])[A-Za-z_](?:" + WORD[:-1] + r"])*")
DEF = re.compile(r"^\s*(?:(?:abbrev|unfoldable|pub|data|record|axiom|mutual|ruleset)\s+)*([A-Za-z_][^\s:()\[\]{},;.]*)\s*(?:\([^:]*:.*\)\s*)*:(?=\s)")
DATA = re.compile(r"^\s*(?:pub\s+)?(data|record)\s+([^\s:({]+)")
RULES = re.compile(r"^\s*(?:pub\s+)?ruleset\s+([^\s:=({]+)")
# words that are names of the library's: what a lemma's parts may be, besides the repository's own definitions
LIBRARY = set("""
le lt ge gt eq ne zero one two suc pos neg nil cons append add sub mul div mod min max take drop length map reverse true false
and or not cond refl get_or set last self snoc iff eqb ltb leb nat_abs negsuc step
""".split())
# definitions whose plain spelling another name has already
CHOSEN = {"allKnown": "are_all_known", "byName": "answer_by_name", "frontAt": "front_at_line", "secondWord": "second_word_of", "writtenAt": "written_for", "getD": "get_or"}
JOINED = {"of", "iff", "as", "in", "at", "by", "with", "from", "for", "is", "are", "has", "have", "no", "is_not", "without", "to"}


def files(top):
    for base in ("crates",):
        for folder, dirs, names in os.walk(os.path.join(top, base)):
            dirs[:] = sorted(d for d in dirs if d not in ("out", "target"))
            for n in sorted(names):
                if n.endswith((".antt", ".rt", ".edit")):
                    yield os.path.join(folder, n)


def pages(top):
    for n in ("README.md", "CHANGELOG.md", "CONTRIBUTING.md"):
        if os.path.isfile(os.path.join(top, n)):
            yield os.path.join(top, n)
    for folder, dirs, names in os.walk(os.path.join(top, "docs")):
        for n in sorted(names):
            if n.endswith(".md"):
                yield os.path.join(folder, n)


def read(path):
    with open(path, encoding="utf-8") as f:
        return f.read()


def is_shared(path):
    """A file of specs/, or one right in proofs/: what it defines may be cited elsewhere."""
    parts = path.split(os.sep)
    return path.endswith(".antt") and (parts[-2] in ("specs", "proofs") or "specs" in parts)


def snake(part):
    """A word in snake case; a fact or a type keeps its capitals."""
    if part == "getD":
        return CHOSEN[part]
    if not part or not part[0].islower():
        return part
    return re.sub(r"(?<=[a-z0-9])([A-Z])", lambda m: "_" + m.group(1).lower(), part)


def collect(top):
    """The names that shared files define: all, those of types, those of fields."""
    names, types, fields, simple = {}, set(), set(), set()
    for path in files(top):
        if not is_shared(path):
            continue
        inside = None
        spec = "specs" in path.split(os.sep)
        for line in read(path).splitlines():
            if line.startswith("--") or line.startswith("use ") or line.startswith("pub use "):
                continue
            d = DATA.match(line)
            if d:
                inside = d.group(1)
                types.add(d.group(2))
                continue
            r = RULES.match(line)
            if r:
                names.setdefault(r.group(1), path)
                inside = None
                continue
            if line and not line[0].isspace():
                inside = None
            m = DEF.match(line)
            if not m:
                continue
            name = m.group(1)
            if inside == "record" and line[0].isspace():
                fields.add(name)
            names.setdefault(name, path)
            if spec and "-" not in name and not (inside == "record" and line[0].isspace()):
                simple.add(name)
    return names, types, fields, simple


def respelled(name, fields, simple):
    parts = [p for p in name.split("-")]
    new = [snake(p) for p in parts]
    if name in fields:
        return "_".join(new)
    own = {snake(s) for s in simple}

    def is_name(old, word):
        return old != word or word[:1].isupper() or word in LIBRARY or (word in own and "_" in word)

    if not any(is_name(o, w) for o, w in zip(parts, new)):
        return "_".join(new)
    out = new[0]
    for i in range(1, len(new)):
        named = is_name(parts[i - 1], new[i - 1]) or is_name(parts[i], new[i])
        out += ("-" if named and new[i] not in JOINED and new[i - 1] not in JOINED else "_") + new[i]
    return out


def outside_quotes(text, turn):
    """turn over what stands outside double quotes."""
    out, at = [], 0
    for m in re.finditer(r'"(?:[^"\\\n]|\\.)*"', text):
        out.append(turn(text[at:m.start()]))
        out.append(m.group(0))
        at = m.end()
    out.append(turn(text[at:]))
    return "".join(out)


def main():
    top = os.getcwd()
    names, types, fields, simple = collect(top)
    table = {}
    for n in names:
        if n in types:
            continue
        new = respelled(n, fields, simple)
        if new != n:
            table[n] = new
    tokens = set()
    for path in files(top):
        tokens.update(TOKEN.findall(read(path)))
    # the names under which a line imports something, and one parameter
    for path in files(top):
        for line in read(path).splitlines():
            if re.match(r"\s*(pub )?(ghost )?use ", line):
                for alias in re.findall(r" as ([a-z]+[A-Z][A-Za-z]*)\b", line):
                    table.setdefault(alias, snake(alias))
    table.setdefault("hasNow", "has_now")
    # where a lemma would have a definition's name it gets `_lem`
    taken = {new for old, new in table.items() if "-" not in old} | {n for n in names if n not in table}
    for old, new in table.items():
        if old in CHOSEN:
            table[old] = CHOSEN[old]
        elif "-" in old and new in taken:
            table[old] = new + "_lem"
    bad = []
    back = {}
    for old, new in sorted(table.items()):
        if new in back:
            bad.append(f"{old} and {back[new]} would both be {new}")
        back[new] = old
        if new in names and new not in table:
            bad.append(f"{old} would be {new}, which stands already in {names[new]}")
    if "--map" in sys.argv:
        for old, new in sorted(table.items()):
            print(old, new, "(also elsewhere)" if new in tokens else "")
    if bad:
        print("\n".join(bad), file=sys.stderr)
        return 1
    if "--map" in sys.argv:
        return 0

    def turn(text, is_walk=False):
        """The text with the names turned. In a proof file of a function what stands behind a dot is a place of its code, but for fields."""

        def one(m):
            word = m.group(0)
            if is_walk and m.start() and text[m.start() - 1] == "." and (word not in fields or re.search(r"tie\.$", text[:m.start()][-4:])):
                return word
            return table.get(word, word)

        return TOKEN.sub(one, text)

    for path in files(top):
        text = read(path)
        is_walk = path.endswith(".antt") and not is_shared(path)
        new = outside_quotes(text, lambda s: turn(s, is_walk))
        if new != text:
            with open(path, "w", encoding="utf-8") as f:
                f.write(new)
    for path in pages(top):
        text = read(path)
        new = re.sub(r"`[^`\n]+`", lambda m: turn(m.group(0)), text)
        if new != text:
            with open(path, "w", encoding="utf-8") as f:
                f.write(new)
    print(f"respell: {len(table)} names")
    return 0


if __name__ == "__main__":
    raise SystemExit(main())

#!/usr/bin/env python3
"""design_places.py [POINT..]: prints the places of the eight points of docs/DESIGN-PASS.md in crates/*/src (and the sizes of proofs for 8), and how many there are of each. It goes by text: what it lists is to be read, not believed."""
import collections
import glob
import re
import sys

FILES = sorted(f for f in glob.glob("crates/*/src/*.rt"))
HEAD = re.compile(r"^(\s*)(pub(?:\(crate\))? )?(?:const )?(?:extern \"C\" )?fn (\w+)(<[^(]*>)?\(", re.M)


def functions():
    """Each function: file, name, signature with clauses, body."""
    for file in FILES:
        text = open(file, encoding="utf-8").read()
        for m in HEAD.finditer(text):
            indent = m.group(1).replace("\n", "")
            # The body begins with a line that is a lone brace at the function's indent, or ends the line of a short one.
            start = re.compile(r"^%s\{\n|\{\n" % re.escape(indent), re.M)
            opening = re.search(r"(?:^%s\{|\) \{|> \{|\w \{|\] \{)\n" % re.escape(indent), text[m.end() :], re.M)
            if not opening:
                continue
            at = m.end() + opening.end()
            end = re.compile(r"^%s\}" % re.escape(indent), re.M).search(text, at)
            if not end:
                continue
            yield file, m.group(3), text[m.start() : at], text[at : end.start()]


def shaped():
    """1. Enums of the shape of Option or Result, flags beside values, numbers for kinds."""
    for file in FILES:
        text = open(file, encoding="utf-8").read()
        for m in re.finditer(r"^(?:pub(?:\(crate\))? )?enum (\w+) \{\n((?:    .*\n|\n)*)\}", text, re.M):
            variants = re.findall(r"^    (\w+)(\(.*\))?(?: = \d+)?,", m.group(2), re.M)
            bare = [v for v, p in variants if not p]
            full = [v for v, p in variants if p]
            if (full and len(bare) == 1) or {"Refused", "Faulty", "Good", "NoRoom"} & {v for v, _ in variants}:
                yield f"{file}: enum {m.group(1)} {{ {', '.join(v + (p or '') for v, p in variants)} }}"
        for m in re.finditer(r"^(?:pub(?:\(crate\))? )?struct (\w+)[^{;]*\{\n((?:    .*\n|\n)*)\}", text, re.M):
            fields = re.findall(r"^    (?:pub )?(\w+): (.*),", m.group(2), re.M)
            for name, kind in fields:
                if kind == "bool":
                    yield f"{file}: struct {m.group(1)}: flag {name}"
    for file, name, head, body in functions():
        if re.search(r"-> u8\n", head) and re.match(r"\s*match \w+ \{", body):
            yield f"{file}: fn {name}: a number for each kind"
        for m in re.finditer(r"\b(\w+) (==|!=) 0 \{", body):
            if re.search(r"(bad|size|last|number)", m.group(1)):
                yield f"{file}: fn {name}: {m.group(0)[:-2]} says that there is none"


def plain(text, names):
    text = re.sub(r"//.*", "", text)
    text = re.sub(r"^\s*(requires|ensures).*$", "", text, flags=re.M)
    text = re.sub(r"b?'[^']*'|b?\"[^\"]*\"|\b\d+\b|\b[A-Z][A-Z_0-9]+\b", "K", text)
    text = re.sub(r"\b[A-Z]\w+(::\w+)?", "T", text)
    text = re.sub(r"\b[ui](8|16|32|64|size)\b", "T", text)
    text = re.sub(r"\b(" + "|".join(names) + r")\b", "F", text)
    return re.sub(r"\s+", " ", text)


def twins():
    """2. Functions that are the same but for types, constants and the names of functions."""
    seen = collections.defaultdict(list)
    all_functions = list(functions())
    names = {re.escape(n) for _, n, _, _ in all_functions}
    for file, name, head, body in all_functions:
        shape = plain(body, names)
        if len(shape) > 60:
            seen[shape].append(f"{file}: fn {name}")
    for places in seen.values():
        if len(places) > 1:
            yield " = ".join(places)


def beside():
    """2b. Calls with a wider call beside them, by name: one is to be a call of the other, or both of one body."""
    everything = [(file, name) for file, name, _, _ in functions()]
    names = {n for _, n in everything}
    for file, name in everything:
        for end in ("_with", "_marked", "_by"):
            if name.endswith(end) and name[: -len(end)] in names:
                yield f"{file}: fn {name}, beside {name[: -len(end)]}"


def loops():
    """3. Loops that count by hand."""
    for file in FILES:
        for n, line in enumerate(open(file, encoding="utf-8"), 1):
            if re.match(r"\s*(while|loop)\b", line) and "//" not in line:
                yield f"{file}:{n}: {line.strip()}"


def by_hand():
    """4. Equality, order, copies, conversion and printing by hand."""
    for file, name, head, body in functions():
        if re.match(r"(same|same_\w+|equal\w*|is_same\w*|compare\w*|before|copy|clone|to_str|\w*number_of|machine_number|as_\w+|mark_byte|mark_of|size_if)$", name):
            yield f"{file}: fn {name}"


def facts():
    """5. Facts in three or more contracts, and parameters that travel together."""
    count = collections.Counter()
    seats = collections.defaultdict(set)
    for file, name, head, body in functions():
        crate = file.split("/")[1]
        for m in re.finditer(r"^\s*(requires|ensures)(?: \w+)? \{ (.*) \}$", head, re.M):
            for fact in re.findall(r"\b([A-Z]\w+) [\w.]+", m.group(2)):
                count[crate, fact] += 1
        signature = head.split("\n    requires")[0].split("\n    ensures")[0]
        for parameter in re.findall(r"(\w+): [^,()]+?(?=,|\)|\n)", signature):
            seats[crate, parameter].add((file, name))
    for (crate, fact), n in sorted(count.items()):
        if n >= 3:
            yield f"crates/{crate}: {fact} in {n} clauses"
    together = collections.defaultdict(list)
    for (crate, parameter), where in sorted(seats.items()):
        if len(where) >= 3:
            together[crate, frozenset(where)].append(parameter)
    for (crate, where), parameters in together.items():
        if len(parameters) > 1:
            yield f"crates/{crate}: {', '.join(parameters)} always together, in {len(where)} functions"


def buffers():
    """6. Buffers and arrays."""
    for file in FILES:
        for n, line in enumerate(open(file, encoding="utf-8"), 1):
            if line.lstrip().startswith("//") or "const " in line and "fn " not in line:
                continue
            if re.search(r"(: |-> |= )&?(mut )?\[[\w ]+; [\w: *+/]+\]", line):
                yield f"{file}:{n}: {line.strip()[:100]}"


def switches():
    """7. A parameter that chooses which function runs."""
    for file, name, head, body in functions():
        signature = head.split("\n    requires")[0].split("\n    ensures")[0]
        enums = re.findall(r"(\w+): ([A-Z]\w+)\b", signature)
        for parameter, kind in enums:
            arms = re.findall(r"%s::\w+ => [\w:!]+\(" % kind, body)
            if len(arms) > 1 and re.search(r"match %s \{" % parameter, body):
                yield f"{file}: fn {name}: by {parameter}: {kind}"


def proofs():
    """8. Proofs: files, answers, lines and names that end in _lem, for each crate."""
    for crate in sorted(glob.glob("crates/*")):
        answers = glob.glob(crate + "/proofs/**/*.antt", recursive=True)
        text = "".join(open(f, encoding="utf-8").read() for f in answers)
        specs = "".join(open(f, encoding="utf-8").read() for f in glob.glob(crate + "/specs/*.antt"))
        if answers:
            n = len(re.findall(r"^pub [\w-]+ : goal\.", text, re.M))
            lem = len(set(re.findall(r"\b\w+_lem\b", text + specs)))
            yield f"{crate}: {n} answers, {len(text.splitlines())} lines, {lem} names that end in _lem"


POINTS = {"1": shaped, "2": twins, "2b": beside, "3": loops, "4": by_hand, "5": facts, "6": buffers, "7": switches, "8": proofs}
for point in sys.argv[1:] or POINTS:
    found = list(POINTS[point]())
    print(f"== {POINTS[point].__doc__} {len(found)}")
    for place in found:
        print("  " + place)

#!/usr/bin/env python3
"""Lists the places in src/ that read like older code, point by point (docs/DESIGN-PASS.md).

    tools/places.py [COMMIT]      each place; without a commit, of the working tree
    tools/places.py --counts ..   the counts alone

A list is of candidates: a line is told by its text, twins by their shape.
"""
import re
import subprocess
import sys
from collections import defaultdict


def sources(commit):
    """Each .rt file below crates/*/src with its text."""
    if commit:
        names = subprocess.run(["git", "ls-tree", "-r", "--name-only", commit, "crates"],
                               capture_output=True, text=True, check=True).stdout.split()
    else:
        names = subprocess.run(["git", "ls-files", "crates"],
                               capture_output=True, text=True, check=True).stdout.split()
    for name in sorted(names):
        if not re.fullmatch(r"crates/[a-z]+/src/.*\.rt", name):
            continue
        if commit:
            text = subprocess.run(["git", "show", f"{commit}:{name}"],
                                  capture_output=True, text=True, check=True).stdout
        else:
            text = open(name).read()
        yield name[len("crates/"):], text


LINES = {
    "1 enums, read one by one": r"^\s*(pub(\(crate\))? )?enum ",
    "1 numbers for kinds": r"=> [0-9]+,",
    "1 options and results taken apart": r"None => (None|true|false|Err)|Err\(_\) =>|Some\(\(\)\)$|Err\((error|trouble|e)\) =>",
    "3 loops that count": r"for \w+ in [0-9]+(u\d+)?\.\.|\bin 0\.\.|^\s*\w+ \+= 1;",
    "3 loops that a chain may say": r"^\s*for ",
    "4 equality and tests by hand": r"=> (true|false)(,| )|=> (true|false)$|match \(",
    "4 structs built again": r"\*self = ",
    "4 conversions and printing": r"^impl.* (From|TryFrom|fmt::Display|PartialEq|Ord|Default)\b.* for ",
    "6 arrays": r"\[[A-Za-z0-9_() :]+; [A-Za-z_0-9]+\]",
    "6 lengths beside them": r"^\s*(pub )?(count|len|n): usize,",
    "7 switches": r"match (self\.|\*?self$)?[a-z.]*(group|plan|pricing|name|mechanism|kind)\b",
}

KEYWORDS = set("""let mut fn if else match for in while loop return break continue self Self Some None Ok Err true
false as ref move impl pub crate usize u8 u16 u32 u64 i32 i64 bool Option Result Vec""".split())


def functions(text):
    """Each function's name and its body, without clauses."""
    for m in re.finditer(r"^( *)(?:pub(?:\(crate\))? )?fn (\w+)", text, re.M):
        indent, name = m.group(1), m.group(2)
        head = text[m.start():]
        body = re.search(r"^" + indent + r"\{\n(.*?)^" + indent + r"\}", head, re.M | re.S)
        one = re.match(r"[^\n]*\{\n(.*?)^" + indent + r"\}", head, re.M | re.S)
        if one and (not body or one.start(1) < body.start(1)):
            body = one
        after = re.search(r"\n" + indent + r"(?:pub|fn|impl|//)", head[1:])
        if body and not (after and body.start() > after.start() + 1):
            yield name, body.group(1)


def shape(body):
    """The body with its own names, numbers and texts told apart only by order."""
    seen, out = {}, []
    body = re.sub(r"//[^\n]*", "", body)
    for tok in re.findall(r'b?"[^"]*"|b?\'[^\']*\'|\w+|[^\s\w]', body):
        if re.match(r"\w", tok) and tok not in KEYWORDS or tok[0] in "\"'":
            tok = seen.setdefault(tok, f"x{len(seen)}")
        out.append(tok)
    return " ".join(out)


def twins(files):
    """Functions of one shape: each but the first of a group is a place."""
    groups = defaultdict(list)
    for name, text in files:
        for fn, body in functions(text):
            s = shape(body)
            if len(s.split()) >= 9:
                groups[s].append(f"{name}: {fn}")
    return [g for g in groups.values() if len(g) > 1]


def clauses(files):
    """Facts of `requires` that stand at three or more functions."""
    count = defaultdict(list)
    for name, text in files:
        for m in re.finditer(r"requires(?: \w+)? \{ (.*) \}$", text, re.M):
            count[m.group(1)].append(name)
    return {k: v for k, v in count.items() if len(v) >= 3}


def travellers(files):
    """Three or more parameters that stand together, in this order or another, in three or more functions."""
    params = defaultdict(list)
    for name, text in files:
        for m in re.finditer(r"fn (\w+)(?:<[^(]*>)?\(([^)]*)\)", text):
            names = [p.split(":")[0].strip() for p in m.group(2).split(",") if ":" in p]
            names = sorted(n.replace("mut ", "") for n in names)
            params[f"{name}: {m.group(1)}"] = names
    found = defaultdict(set)
    keys = list(params)
    for i, a in enumerate(keys):
        for b in keys[i + 1:]:
            both = tuple(sorted(set(params[a]) & set(params[b])))
            if len(both) >= 3:
                found[both] |= {a, b}
    return {k: sorted(v) for k, v in found.items() if len(v) >= 3}


def main():
    args = [a for a in sys.argv[1:] if a != "--counts"]
    counts = "--counts" in sys.argv
    files = list(sources(args[0] if args else None))
    for title, pattern in LINES.items():
        hits = [(n, i, line.strip()) for n, text in files
                for i, line in enumerate(text.split("\n"), 1)
                if re.search(pattern, line) and not line.strip().startswith("//")]
        print(f"{title}: {len(hits)}")
        if not counts:
            for n, i, line in hits:
                print(f"    {n}:{i}: {line}")
    groups = twins(files)
    print(f"2 functions of one shape: {sum(len(g) for g in groups)} in {len(groups)} groups")
    if not counts:
        for g in groups:
            print("    " + " = ".join(g))
    facts = clauses(files)
    print(f"5 facts at three or more functions: {sum(len(v) for v in facts.values())} of {len(facts)}")
    if not counts:
        for k, v in facts.items():
            print(f"    {k}: {len(v)}")
    travel = travellers(files)
    print(f"5 parameters that travel together: {len(travel)}")
    if not counts:
        for k, v in travel.items():
            print(f"    {', '.join(k)}: {'; '.join(v)}")


main()

#!/usr/bin/env python3
"""Respells this repository's own names in specs/ and proofs/, once, after the kit's port.py.

usage: python3 tools/respell.py [--list]      at the top of the repository

Words are in snake case, types and facts in upper camel case. A name that this repository defines in specs/, in a lemma
file of proofs/ or as a helper in an answer file, and that is spelled with dashes or with humps, gets its new spelling
wherever it stands as a whole word in .antt files, in the clauses of .rt files, and in backquotes in the documents.
Names that the check makes (goals, invariants, steps) and names of the library stay. With --list nothing is written, and
the names are printed, with those that would fall together.
"""

import collections
import glob
import re
import sys

# Names whose plain respelling is taken by another name: what each is called instead.
OTHERWISE = {
    "best-under": "best_is_under",
    "by_side": "either_side",
    "entry-of": "entry_of_fields",
    "inLine": "stands_in_line",
    "in-range": "in_range_holds",
    "left_over": "left_over_fits",
    "net-size": "net_size_few",
    "rises-from": "best_rises",
    "up-to": "up_to_bounds",
    "words-in": "words_in_pieces",
    "words-of": "said_words",
}

NAME = r"[^\s(){}\[\]:;,.=\\|λ→∷`\"]+"
DEFINED = re.compile(r"^(\s*)(?:abbrev\s+)?(?:pub\s+)?(?:abbrev\s+)?(record\s+|data\s+)?(" + NAME + r")((?:\s+[({].*?[)}])*)\s*:\s(.*)$")
MADE = re.compile(r"^(goal|need|given)\.")


def is_type(kind, sig):
    """Whether a definition with this signature gives a type."""
    return bool(kind) or bool(re.search(r"(^|→ )Type 0$", sig.strip()))


def respelled(name, a_type):
    if name in OTHERWISE:
        return OTHERWISE[name]
    if name[0].isupper():
        return "".join(w[0].upper() + w[1:] for w in name.split("-"))
    words = re.sub(r"(?<=[a-z0-9])([A-Z])", r"-\1", name).split("-")
    words = [w for part in words for w in part.split("_")]
    if a_type:
        return "".join(w[0].upper() + w[1:] for w in words)
    return "_".join(w[0].lower() + w[1:] if not w.isupper() or len(w) == 1 else w for w in words)


def lemma_files():
    for p in sorted(glob.glob("crates/*/specs/**/*.antt", recursive=True) + glob.glob("crates/*/proofs/**/*.antt", recursive=True)):
        yield p


def read(p):
    with open(p, encoding="utf-8") as f:
        return f.read()


def definitions():
    """name -> the new name, of each definition that wants one; and the names that answer files get from the check."""
    ours, made = {}, set()
    for p in lemma_files():
        answers = p.endswith(("/Answers.antt", "/Invariants.antt", "/Proof.antt"))
        for line in read(p).split("\n"):
            m = DEFINED.match(line)
            if not m or m[3] in ("let", "use", "in"):
                continue
            name, sig = m[3], m[5]
            if answers and (MADE.match(sig)):
                made.add(name)
                continue
            new = respelled(name, is_type(m[2], sig) and not m[1])
            if new != name:
                ours.setdefault(name, new)
    return ours, made


def imported_from_outside():
    """The names that files take from the library."""
    mine = {p.split("/")[1] for p in lemma_files()}
    out = set()
    for p in list(lemma_files()) + glob.glob("crates/*/src/**/*.rt", recursive=True):
        for m in re.finditer(r"^\s*(?:pub )?(?:ghost )?use ([A-Za-z0-9_.]+)\.\{([^}]*)\}", read(p), re.M):
            parts = m[1].split(".")
            if parts[0] == "Rattle" and parts[1] in mine:
                continue
            for w in m[2].split(","):
                out.add(w.strip().split(" as ")[-1])
    return out


WORD = re.compile(r"(?<![\w'\-·])([A-Za-z_][\w'\-·]*)(?![\w'\-·])")


def swap(text, names):
    return WORD.sub(lambda m: names.get(m[1], m[1]), text)


def swap_clauses(text, names):
    """The ghost lines and the clauses of a source file; code, strings and comments stay."""
    out, i = [], 0
    opens = re.compile(r"^[ \t]*(?:pub )?(?:ghost use [^;]*;|ghost [^\n]*?[:=] \{|(?:requires|ensures)\*?(?: \w+)? \{|invariant(?: \w+)? \{)", re.M)
    while True:
        m = opens.search(text, i)
        if not m:
            out.append(text[i:])
            return "".join(out)
        out.append(text[i:m.start()])
        end = m.end()
        if not m[0].rstrip().endswith(";"):
            deep = 1
            while deep:
                deep += {"{": 1, "}": -1}.get(text[end], 0)
                end += 1
        out.append(swap(text[m.start():end], names))
        i = end


def main():
    ours, made = definitions()
    outside = imported_from_outside()
    both = sorted((set(ours) & made) | (set(ours) & outside))
    names = {a: b for a, b in ours.items() if a not in outside and a not in made}
    if "--list" in sys.argv:
        back = collections.defaultdict(set)
        for a, b in names.items():
            back[b].add(a)
        tokens = collections.Counter()
        for p in lemma_files():
            for m in WORD.finditer(read(p)):
                tokens[m[1]] += 1
        for b, many in sorted(back.items()):
            if len(many) > 1:
                print("together:", b, sorted(many))
            elif b in outside:
                print("of the library:", b, sorted(many))
            elif b in tokens:
                print("taken:", b, sorted(many), tokens[b])
        print("also made or of the library:", both)
        print(len(names), "names")
        return
    for p in lemma_files():
        old = read(p)
        new = swap(old, names)
        if new != old:
            open(p, "w", encoding="utf-8").write(new)
    for p in glob.glob("crates/*/src/**/*.rt", recursive=True):
        old = read(p)
        new = swap_clauses(old, names)
        if new != old:
            open(p, "w", encoding="utf-8").write(new)
    # The documents also name what port.py respelled: a name that is gone, and whose respelling is defined.
    defined = set()
    for p in lemma_files():
        defined |= {m[3] for m in map(DEFINED.match, read(p).split("\n")) if m}
    for p in glob.glob("docs/*.md") + ["README.md"]:
        old = read(p)
        shown = {w for m in re.findall(r"`[^`\n]+`", old) for w in WORD.findall(m)}
        gone = {w: respelled(w, False) for w in shown if w not in defined and respelled(w, False) in defined}
        new = re.sub(r"`[^`\n]+`", lambda m: swap(m[0], {**gone, **names}), old)
        if new != old:
            open(p, "w", encoding="utf-8").write(new)


main()

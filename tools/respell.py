#!/usr/bin/env python3
"""Brings the definitions and lemmas of crates/ to one spelling: words in snake case, a dash only between two operations.

usage: python3 tools/respell.py [-n]       at the top of the repository, once, after the kit's port.py; -n only says what it would do

A name that is declared in specs/ or in a law file of proofs/ (every .antt file but Proof.antt) is respelled wherever it stands:
in .antt files, in contracts and ghost use items of .rt files, in must-fail and wrong edits, and between backticks in pages.
Rust names, exported names, strings and outputs keep theirs. It stops where two names would fall together.
"""
import os
import re
import sys

DRY = "-n" in sys.argv
WORD = r"[^\s(){}\[\].,;:`\"λ→×∷≡≤<>=+*/|&∙←\\]+"
DECL = re.compile(r"^[ \t]*(?:(?:pub|abbrev|unfoldable|opaque|private)[ \t]+)*(" + WORD + r")(?:[ \t]+(?:\{[^}]*\}|\([^)]*\)))*[ \t]*:[ \t]", re.M)
# operations of the library that lemmas are named after
LIBRARY = {"length", "take", "drop", "suc", "zero", "append", "set", "map", "replicate", "get_or", "⊕", "when", "mod", "cond", "perm"}
# names that port.py has respelled already, as they stand in pages and edits
PORTED = """
add-low add-to-spec alike-all alike-at alike-next all-cons all-nil all-there answerOf at-done atLeast atMost below-up bit-high
bitAt bits-at bits-none blockOf bump-at bytes-down bytes-most bytes-next bytes-one bytes-whole bytes-word bytesOf callOf cell-at
copy-done copy-step count-most count-spec counted-next each-spec endIn endOf enter-spec entered-at entry-of entry-spec entryAt
even-odd every-one field-at field-below field-lt fill-done fill-none fill-spec finish-spec first-fits first-key first-of
first-past first-spec firstAt fits-one fits-word fold-end fold-next found-none from-is front-length get-spec height-spec heldAt
here-in highWord imageOf is-odd isNone keyAt keyOf keysOf laid-next late-is leBytes left-alone length-most length-none
length-run length-some limits-of listOf low-seven lowWord made-none made-some masked-low midOf mod-times new-spec no-less
none-left none-of not-at noted-here noted-other notedIn number-fits number-is number-of odd-even one-left one-more over-none
over-zeros pair-is pairOf part-cut part-none parts-at parts-next past-points placeOf pointOf pos-inj put-front put-is put-next
put-other put-right put-step put-two put-whole read-as read-back ready-of record-of room-most roomFor same-length same-low
same-self second-fits second-key set-spec share-from shareOf shares-sum sideIn size-back size-is size-mono sizeOf slots-at
start-small startOf starts-fit step-kept step-spec stepOf stored-next sum-mono sum-one sum-same sumTo sums-same tail-all
take-put take-short third-of too-large too-small top-bit treeFor true-of trying-start turn-spec value-none value-spec valueAt
valued-same walk-ends walk-kept walkOf when-false when-true whole-back whole-in word-back word-below word-fits word-piece wordAt
wordBytes wordIn words-snoc words-step wordsIn wordsOf xor-assoc zero-room
""".split()


def files(*endings):
    for folder, dirs, names in os.walk("."):
        dirs[:] = sorted(d for d in dirs if d not in (".git", "out", "target"))
        for n in sorted(names):
            if n.endswith(endings):
                yield os.path.join(folder, n)


def read(p):
    with open(p, encoding="utf-8") as f:
        return f.read()


def uncommented(t):
    return re.sub(r"(?m)^[ \t]*--.*$", "", t)


def snake(part):
    part = re.sub(r"([a-z0-9])([A-Z])", r"\1_\2", part)
    return re.sub(r"[A-Z]", lambda m: m.group(0).lower(), part)


def library_name(n):
    return n.replace("getD", "get_or").replace("bitXor", "bit_xor").replace("leadingZeros", "count_leading_zeros")


def main():
    declared, operations = set(), set(LIBRARY)
    for p in files(".antt"):
        if not p.startswith("./crates") or p.endswith("Proof.antt"):
            continue
        found = set(DECL.findall(uncommented(read(p))))
        declared |= found
        if "/specs/" in p:
            operations |= {snake(library_name(n)) for n in found if "-" not in n}
    turn = {}
    for n in sorted(declared):
        if not (n[0].islower() or n[0] == "⊕"):
            continue
        parts = [snake(x) for x in library_name(n).split("-")]
        two = len(parts) == 2 and parts[0] in operations and parts[1] in operations
        new = ("-" if two else "_").join(parts)
        if new != n:
            turn[n] = new
    taken = {}
    for n in declared:
        taken.setdefault(turn.get(n, n), []).append(n)
    for new, olds in taken.items():
        # a lemma that would have its function's name
        for n in olds:
            if len(olds) > 1 and "-" in n:
                turn[n] = new + "_lem"
    together = {}
    for n in declared:
        together.setdefault(turn.get(n, n), []).append(n)
    bad = {new: olds for new, olds in together.items() if len(olds) > 1}
    for new, olds in sorted(bad.items()):
        print(f"fall together: {', '.join(olds)} -> {new}")
    for n in PORTED:
        turn.setdefault(n, snake(n).replace("-", "_"))
    print(f"{len(turn)} names")
    if DRY:
        for n, new in sorted(turn.items()):
            print(f"  {n} -> {new}")
    if bad or DRY:
        return 1 if bad else 0

    token = re.compile(r"(?<![\w'⊕-])(" + "|".join(sorted(map(re.escape, turn), key=len, reverse=True)) + r")(?![\w'⊕-])")

    def respelled(t):
        return token.sub(lambda m: turn[m.group(1)], t)

    def camel_respelled(t):
        return token.sub(lambda m: m.group(1) if "-" in m.group(1) else turn[m.group(1)], t)

    # a camel name in antt that no file declares is a variable of a lemma or a proof
    variable = re.compile(r"(?<![\w'⊕.-])([a-z][a-z0-9]*(?:[A-Z][a-z0-9]*)+)(?![\w'⊕-])")
    for p in files(".antt"):
        if p.startswith("./crates"):
            t = read(p)
            new = variable.sub(lambda m: snake(m.group(1)), respelled(t))
            if new != t:
                open(p, "w", encoding="utf-8").write(new)
    for p in files(".rt"):
        t = read(p)
        # in clauses and ghost use items alone; in a comment a word of prose may have a dash
        out, depth = [], 0
        for line in t.split("\n"):
            s = line.strip()
            if s.startswith("//"):
                line = camel_respelled(line)
            elif depth > 0 or re.match(r"(ghost|requires|ensures)\b", s):
                depth += line.count("{") - line.count("}")
                line = respelled(line)
            out.append(line)
        new = "\n".join(out)
        if new != t:
            open(p, "w", encoding="utf-8").write(new)
    for p in files(".edit"):
        t = read(p)
        new = "\n".join(respelled(l) if re.match(r"(old|new|file):", l) else camel_respelled(l) for l in t.split("\n"))
        if new != t:
            open(p, "w", encoding="utf-8").write(new)
    for p in files(".md"):
        t = read(p)
        new = re.sub(r"`[^`\n]*`", lambda m: respelled(m.group(0)), t)
        if new != t:
            open(p, "w", encoding="utf-8").write(new)
    return 0


raise SystemExit(main())

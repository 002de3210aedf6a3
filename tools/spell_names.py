#!/usr/bin/env python3
"""Brings the names of this repository's own definitions and lemmas to one spelling: words in snake case.

usage: python3 tools/spell_names.py [--dry]     at the top of the repository, once, after port.py of the kit

A name that specs/ or proofs/ defines and that has a dash gets an underscore in its place, wherever it is cited: in
specs/, proofs/ and the clauses of src/. Names that Rattle makes (goals, invariants, steps of a proof), names of the
library and of functions in src/ stay. A definition named as a clause's own word gets another name (OTHER), and the
clauses that it had kept in their older form lose that form.
"""

import glob
import os
import re
import sys

# A definition with the name of a word of clauses: in the module that declares it, and where it is imported from there.
OTHER = {"result": ("heat_account", "Judged", "result_of")}

DEFINED = re.compile(r"^\s*((?:(?:pub|abbrev|unfoldable|record|data|ruleset)\s+)*)([^\s(){}\[\]:;,=.|λ\"]+)(?=\s*(?:[({][^=]*)?:\s)")
WORD = re.compile(r"[^\s(){}\[\]:;,=.|λ\"⌜⌝]+")
MADE = ("Answers.antt", "Invariants.antt", "Choices.antt", "Proof.antt")
LIBRARY = re.compile(r"^\s*(?:ghost )?use Rattle\.std\.[^{;]*\{([^}]*)\}|^\s*(?:ghost )?use borrow\.[^{;]*\{([^}]*)\}", re.M)


def files(*endings):
    for f in sorted(glob.glob("crates/**/*", recursive=True)):
        if f.endswith(endings) and "/out/" not in f:
            yield f


def own_names():
    names, made = {}, set()
    for f in files(".antt"):
        with open(f, encoding="utf-8") as it:
            for line in it:
                m = DEFINED.match(line)
                if not m or "-" not in m.group(2).strip("-"):
                    continue
                name = m.group(2)
                if re.search(r":\s*(?:goal|need|given)\.", line) or name.startswith(("invariant-", "decreases-")):
                    made.add(name)
                else:
                    names.setdefault(name, f)
    return {n: f for n, f in names.items() if n not in made}, made


def spelled(name):
    return name.replace("-", "_")


def renamed(text, path):
    for name, (crate, module, new) in OTHER.items():
        there = path.endswith(f"crates/{crate}/specs/{module}.antt")
        line = re.compile(r"(use Rattle\.%s\.specs\.%s\.\{[^}]*?)\b%s\b" % (crate, module, name))
        if there or line.search(text):
            text = line.sub(r"\g<1>" + new, text)
            text = re.sub(r"(?<![.\w-])%s(?= (?::|plan|\(plan))" % name, new, text)
    return text


def plain_clauses(text):
    """A clause that kept its λ since a definition was named as its result."""

    def plain(m):
        fact = m.group(4)
        if m.group(3) != "_":
            fact = re.sub(r"(?<![.\w])%s(?![\w])" % m.group(3), "result", fact)
        return m.group(1) + (m.group(2) or "") + " { " + fact + " }"

    # A bound's member goes by its type.
    text = re.sub(r"\(shares (?=(?:rule|self|account)\b)", "(R.shares ", text) if "R: Sharing" in text else text
    return re.sub(r"(ensures)\*( \w+)? \{ λ (\w+)\. ⌜ (.*) ⌝ \}", plain, text)


def imported(text):
    found = set()
    for m in LIBRARY.finditer(text):
        for word in (m.group(1) or m.group(2)).split(","):
            found.add(word.split(" as ")[-1].strip())
    return found


def in_clauses(text):
    """The spans of a source file in which antt is written: ghost uses, clauses, ghost fields and attributes."""
    spans = []
    for m in re.finditer(r"^\s*ghost use [^;]*;", text, re.M):
        spans.append(m.span())
    for m in re.finditer(r"^\s*(?:requires|ensures|ghost|law|invariant|also_owns|also_shares)\b[^\n{]*\{", text, re.M):
        depth, i = 1, m.end()
        while i < len(text) and depth:
            depth += {"{": 1, "}": -1}.get(text[i], 0)
            i += 1
        spans.append((m.end(), i))
    return sorted(spans)


def turn(text, names, keep):
    def word(m):
        w = m.group(0)
        return spelled(w) if w in names and w not in keep else w

    out = []
    for line in text.split("\n"):
        head, mark, comment = line.partition("-- ") if not line.lstrip().startswith("--") else ("", line, "")
        out.append(WORD.sub(word, head) + mark + comment)
    return "\n".join(out)


def main(dry):
    if not os.path.isdir("crates"):
        sys.exit("spell_names: run it at the top of the repository")
    names, made = own_names()
    changed = 0
    for f in files(".antt", ".rt"):
        with open(f, encoding="utf-8") as it:
            text = it.read()
        keep = imported(text)
        if f.endswith(".antt"):
            new = renamed(turn(text, names, keep), f)
        else:
            new, at = "", 0
            for a, b in in_clauses(text):
                if a < at:
                    continue
                new += text[at:a] + WORD.sub(lambda m: spelled(m.group(0)) if m.group(0) in names and m.group(0) not in keep else m.group(0), text[a:b])
                at = b
            new = plain_clauses(renamed(new + text[at:], f))
        if new != text:
            changed += 1
            if not dry:
                with open(f, "w", encoding="utf-8") as it:
                    it.write(new)
    print(f"spell_names: {len(names)} names, {changed} files")
    return names, made


if __name__ == "__main__":
    main("--dry" in sys.argv[1:])

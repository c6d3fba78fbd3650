#!/usr/bin/env python3
"""Brings the repository's own definitions and lemmas to snake case: once, on what port.py left, before any edit by hand.

usage: python3 tools/respell.py         at the top of the repository
       python3 tools/respell.py --try   says what it would do, and where names fall together, and writes nothing

A name is respelled where it is declared in a specs/ or proofs/ file of a crate: `is-run` and `addIf` become `is_run` and `add_if`.
Names of the library, names that the checker makes, functions of src/, strings and a proof's own answers keep theirs.
"""

import collections
import glob
import re
import sys

# Where the plain spelling falls together with another name: the lemma of a definition gets `_lem`, a number of a refusal `_number`.
CHOSEN = {
    "noTable": "no_table_number", "shortSlice": "short_slice_number", "fullCount": "full_count_number",
    "badLetter": "bad_letter_number", "tooManyLetters": "too_many_letters_number",
    "stepBack": "back_to_step", "followBack": "back_to_follow", "noMember": "no_member_text",
    "bit-or": "bit_of_or", "bit-and": "bit_of_and", "formula-models": "formula_answer",
    "walkerOf": "walker_from", "countsFit": "counts_do_fit",
}
# A definition that would have the name of the function of src/ that it speaks of says what that function returns.
for definition in """pairFinal builtNumbers doneNumbers movedNumbers judgedNumbers lastingNumbers writtenNumbers ruleNumbers walkerNumbers
steppedNumbers searchedNumbers textNumbers trimmedNumbers modelNumbers allIf joinWords lettersAt keptWays ruleIn modelIn ofRules hexDigit
textIn movedLabel movedFinals ledTo""".split():
    CHOSEN[definition] = re.sub(r"([A-Z])", lambda m: "_" + m.group(1).lower(), definition) + "_of"
LEMMAS = """answer-of either-a as-rule as-second as-star follow-from handed-on junction-byte kind-byte last-from model-bytes
more-text plain-byte row-weight rule-in rule-of table-for verdict-of""".split()
for lemma in LEMMAS:
    CHOSEN[lemma] = lemma.replace("-", "_") + "_lem"

DECLARED = re.compile(r"^\s*(?:abbrev |unfoldable |opaque )*(?:pub )?(?:abbrev |unfoldable )?([^\s:(){}\[\].,;]+)\s*:\s")
TOKEN = re.compile(r"[^\s(){}\[\].,;`]+")
USE = re.compile(r"^\s*(?:ghost )?(?:pub )?use\s+([\w.'\u25cc-]+?)\.?(?:\{([^}]*)\})?(?:\s+as\s+\S+)?;?\s*$")


def snake(name):
    if name in CHOSEN:
        return CHOSEN[name]
    s = name.replace("-", "_")
    return re.sub(r"(?<=[a-z0-9])([A-Z])(?=[a-z]|$|[^A-Za-z])", lambda m: "_" + m.group(1).lower(), s)


def own_proof(path):
    return path.endswith("/Proof.antt")


def read(path):
    with open(path, encoding="utf-8") as f:
        return f.read()


def declared(text):
    return {m.group(1) for l in text.splitlines() if not l.lstrip().startswith("--") for m in [DECLARED.match(l)] if m}


def foreign(text, crates):
    """The names that a file takes from a library."""
    found = set()
    for line in text.splitlines():
        m = USE.match(line)
        if not m or not m.group(2):
            continue
        parts = m.group(1).split(".")
        if parts[0] == "Rattle" and len(parts) > 1 and parts[1] in crates:
            continue
        found |= {n.strip().split(" as ")[0] for n in m.group(2).split(",")}
    return found


def main(argv):
    crates = {c.split("/")[1] for c in glob.glob("crates/*/src")}
    antt = sorted(glob.glob("crates/*/specs/**/*.antt", recursive=True) + glob.glob("crates/*/proofs/**/*.antt", recursive=True))
    sources = sorted(glob.glob("crates/*/src/**/*.rt", recursive=True))
    edits = sorted(glob.glob("crates/*/must-fail/*.edit"))
    texts = {p: read(p) for p in antt + sources + edits}
    own = collections.defaultdict(set)
    for p in antt:
        if not own_proof(p):
            for n in declared(texts[p]):
                own[n].add(p)
    new = {n: snake(n) for n in own if re.match(r"[a-z]", n) and snake(n) != n}
    # A name of a cycle's or a walk's own file is its own affair; the field that a call leaves is the checker's.
    made = {f.replace("_", "-") for p in sources for f in re.findall(r"\bfn (\w+)", texts[p])}
    together = 0
    for p in antt + sources + edits:
        text = texts[p]
        keep = foreign(text, crates)
        local = declared(text) if own_proof(p) else set()
        seen = collections.defaultdict(set)

        def turn(line, comment):
            def one(m):
                t = m.group(0)
                before = line[: m.start()]
                if t in new and t not in keep and t not in local and not before.endswith("tie."):
                    if comment and "-" in t:
                        return t
                    if own_proof(p) and before.endswith(".") and t in made:
                        return t
                    seen[new[t]].add(t)
                    return new[t]
                seen[t].add(t)
                return t
            return TOKEN.sub(one, line)

        out = []
        for line in text.split("\n"):
            if p.endswith(".edit"):
                out.append(re.sub(r"^((?:old|new): ?)(.*)$", lambda m: m.group(1) + turn(m.group(2), False), line))
                continue
            mark = "//" if p.endswith(".rt") else "--"
            code, sep, rest = line.partition(mark) if (mark == "--" and line.lstrip().startswith("--")) or mark == "//" else (line, "", "")
            if p.endswith(".rt"):
                code = "".join(turn(x, False) if i % 2 == 0 else x for i, x in enumerate(re.split(r'(b?"(?:[^"\\]|\\.)*")', code)))
            else:
                code = turn(code, False)
            out.append(code + sep + (turn(rest, True) if sep else ""))
        for to, froms in seen.items():
            if len(froms) > 1:
                together += 1
                print(f"together: {p}: {sorted(froms)} -> {to}")
        done = "\n".join(out)
        if done != text and "--try" not in argv:
            with open(p, "w", encoding="utf-8") as f:
                f.write(done)
    pages = ["README.md"] + sorted(glob.glob("docs/*.md"))
    for p in pages:
        text = read(p)
        done = re.sub(r"`[^`\n]+`", lambda m: TOKEN.sub(lambda t: new.get(t.group(0), t.group(0)) if t.group(0) not in made else t.group(0), m.group(0)), text)
        if done != text and "--try" not in argv:
            with open(p, "w", encoding="utf-8") as f:
                f.write(done)
    print(f"respell: {len(new)} names; {together} fall together in a file")
    if "--list" in argv:
        for n in sorted(new):
            print(n, new[n])
    return 0


if __name__ == "__main__":
    raise SystemExit(main(sys.argv[1:]))

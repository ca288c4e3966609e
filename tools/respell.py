#!/usr/bin/env python3
"""Brings the repository's own words to the library's spelling: snake case for definitions, lemmas, fields and constructors.

usage: python3 tools/respell.py          at the top, once, after the kit's port.py
       python3 tools/respell.py --list   prints each old and new word, and changes nothing

Functions of src/, strings and what a function's own proof file declares keep their names.
"""

import glob
import re
import sys

NAME = r"[^\s(){}.;,@\"«»]+"
BARE = rf"(?<![^\s(){{}};,@«»`]){NAME}"
GOALS = re.compile(r"/(Proof|Answers|Invariants)\.antt$")
# What stands at the margin, and what stands in a module or a record of its own.
INSIDE = re.compile(r"(?m)^ +(?:(?:abbrev|unfoldable|pub) )*([^\s(){}.;,]+)(?: \{[^{}\n]*\})*(?: \([^()\n]*\))* :(?!=)")
DECLARED = re.compile(r"(?m)^(?:(?:abbrev|unfoldable|pub|record|data|ruleset) )*([^\s(){}.;,]+)(?: \{[^{}\n]*\})*(?: \([^()\n]*\))* :(?!=)")
# Lemmas that would have the name of a definition, as it is spelled from now on.
LEMMAS = {
    "all_digits": "all_digits_lem",
    "at_front": "in_front",
    "four_bytes": "four_bytes_lem",
    "goes_on": "goes_on_lem",
    "is_digit": "is_digit_lem",
    "multiply_word": "multiply_word_lem",
    "one_line": "one_line_lem",
    "read_at": "read_at_lem",
    "same_bytes": "same_bytes_lem",
    "same_target": "same_target_lem",
    "two_digits": "two_digits_lem",
}


def snake(word):
    word = word.replace("-", "_").replace("/", "_")
    word = re.sub(r"(?<=[a-z0-9])_?([A-Z]+)(?=[a-z]|$|[0-9_'₀-₉])", lambda m: "_" + m[1].lower(), word)
    return word.lower()


def read(path):
    with open(path, encoding="utf-8") as f:
        return f.read()


def code_and_comments(text, mark):
    """Pieces of a text: (is it a comment, the piece)."""
    at = 0
    for m in re.finditer(rf"(?m){mark}(?=[\s-]|$).*$", text):
        yield False, text[at : m.start()]
        yield True, m[0]
        at = m.end()
    yield False, text[at:]


def main():
    antt = sorted(glob.glob("crates/*/specs/**/*.antt", recursive=True) + glob.glob("crates/*/proofs/**/*.antt", recursive=True))
    rust = sorted(glob.glob("crates/*/src/**/*.rt", recursive=True))
    own = {p.split("/")[1] for p in antt + rust}
    texts = {p: read(p) for p in antt + rust}

    foreign = set()
    imports = re.compile(r"\buse ([\w.'◌]+)\.\{([^{}]*)\}")
    for t in texts.values():
        for m in imports.finditer(t):
            steps = m[1].split(".")
            if not (steps[0] == "Rattle" and steps[1] in own):
                foreign |= {w.split(" as ")[0].strip() for w in m[2].split(",")}

    camel = {}
    for p, t in texts.items():
        for w in re.findall(r"(?<![\w'])[a-z][\w']*", t):
            if re.search(r"[a-z0-9_][A-Z]", w) and w not in foreign and not p.endswith("main.rt"):
                camel[w] = snake(w)
    dashed = {}
    for p in antt:
        if not GOALS.search(p):
            for w in DECLARED.findall(texts[p]) + INSIDE.findall(texts[p]):
                if "-" in w and w not in foreign:
                    dashed[w] = snake(w)

    inside = {w: snake(w) for p in antt if not GOALS.search(p) for w in INSIDE.findall(texts[p]) if "-" in w and w not in foreign}
    declared = {w for p in antt for w in DECLARED.findall(texts[p])} - set(LEMMAS)
    taken = declared | set(camel.values())
    dashed = {old: new + "_lem" if new in taken else new for old, new in dashed.items()}
    both = camel | dashed
    for old, new in sorted(both.items()):
        if new in declared and new not in both or list(both.values()).count(new) > 1:
            print(f"falls together: {old} and {new}")
    if "--list" in sys.argv:
        print("\n".join(f"{old} -> {new}" for old, new in sorted(both.items())))
        return

    for p in antt + rust:
        t = texts[p]
        is_rust = p.endswith(".rt")
        here = dict(dashed) if not is_rust else {}
        aliases = {}
        for m in re.finditer(r"(?m)^use [\w.'+◌-]+ as (\S+)$", t):
            if snake(m[1]) != m[1] and m[1][0].islower():
                aliases[m[1]] = snake(m[1]).lower()
        # A dashed word that the file brings from elsewhere, or that its own goals have, stays.
        if GOALS.search(p):
            for w in DECLARED.findall(t) + INSIDE.findall(t):
                here.pop(w, None)
        for m in imports.finditer(t):
            steps = m[1].split(".")
            if not (steps[0] == "Rattle" and steps[1] in own) or steps[-1] in ("Goals", "Given"):
                for w in m[2].split(","):
                    here.pop(w.split(" as ")[0].strip(), None)
        results = bool(re.search(r"use Rattle\.alu_rules\.specs\.Result\.\{[^{}]*\bresult\b", t)) or p == "crates/alu_rules/specs/Result.antt"
        out = []
        for comment, piece in code_and_comments(t, "//" if is_rust else "--"):
            if not is_rust and not comment:
                piece = re.sub(BARE, lambda m: LEMMAS.get(m[0], m[0]), piece)
            piece = re.sub(r"(?<![\w'])[a-z][\w']*", lambda m: camel.get(m[0], m[0]), piece)
            if comment:
                piece = re.sub(r"`([^`\s]+)`", lambda m: f"`{dashed.get(m[1], m[1])}`", piece)
            else:
                if here or aliases:
                    def turn(m):
                        w = m[0]
                        after = piece[m.end() : m.end() + 1]
                        if w in aliases:
                            return aliases[w]
                        return here.get(w, w)

                    piece = re.sub(BARE, turn, piece)
                    piece = re.sub(rf"(?<=\.)({NAME})", lambda m: inside.get(m[0], m[0]), piece)
                    # a word behind a module's name
                    modules = {a for a in re.findall(r"(?m)^use Rattle\.[\w.'+]+ as (\S+)$", t)}
                    modules |= {m.split(".")[-1] for m in re.findall(r"(?m)^use (Rattle\.[\w.'+]+)$", t)}
                    for a in modules:
                        a = aliases.get(a, a)
                        piece = re.sub(rf"(?<![^\s(){{}};,]){re.escape(a)}\.({NAME})", lambda m: f"{a}.{here.get(m[1], m[1])}", piece)
                if results:
                    piece = re.sub(r"(?<![\w'.-])result(?![\w'-])", "result_of", piece) if not is_rust else piece
                    if is_rust:
                        piece = re.sub(r"(ghost use Rattle\.alu_rules\.specs\.Result\.\{[^{}]*)\bresult\b", r"\1result_of", piece)
                        piece = re.sub(r"(?m)^(    (?:ensures|requires)\*? .*)$", lambda m: re.sub(r"(?<![\w'.])result(?![\w'])", "result_of", m[1]), piece)
            out.append(piece)
        t = "".join(out)
        if is_rust:
            t = re.sub(r"ensures\* \{ λ ([a-z_]+)\. ⌜ ([^\n]*) ⌝ \}", lambda m: "ensures { " + (re.sub(rf"(?<![\w'.]){m[1]}(?![\w'])", "result", m[2]) if m[1] != "_" else m[2]) + " }", t)
        if t != texts[p]:
            with open(p, "w", encoding="utf-8") as f:
                f.write(t)


main()

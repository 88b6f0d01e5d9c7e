#!/usr/bin/env python3
"""Spells this repository's own words and lemmas in snake case: `bitsOf` and `left-next` become `bits_of` and `left_next`.

usage: tools/respell.py [--check] [ROOT]

It reads the .antt files of crates/*/specs and crates/*/proofs, the clauses of the .rt files, the must-fail edits, and code spans in .md files.
A name that a file imports from a library stays, and so do the names that the check makes (goals and the steps behind `c.`), names that begin with a
capital, and what stands in Rust code. OTHER has the names that would fall together with another one. --check writes nothing and says what falls together.
"""

import collections
import os
import re
import sys

# Names whose plain respelling is another name already, or that are facts: old, new.
OTHER = {
    "closed-at-end": "closed_at_end_lem",
    "coefficients-of": "coefficients_of_lem",
    "cos-inside": "cos_inside_lem",
    "df-of": "df_of_lem",
    "dff-of": "dff_of_lem",
    "file-of": "file_of_lem",
    "filter-by": "filter_by_lem",
    "filter-count": "filter_count_lem",
    "first-row": "first_row_lem",
    "gnorm-of": "gnorm_of_lem",
    "ignorm-of": "ignorm_of_lem",
    "increments-after": "increments_after_lem",
    "ln-part": "ln_part_lem",
    "minus-square": "minus_square_lem",
    "mixed-line": "mixed_line_lem",
    "nan-bits": "nan_bits_lem",
    "noise-alone": "noise_alone_lem",
    "other-nan": "other_nan_lem",
    "pattern-units": "pattern_units_lem",
    "power-inside": "power_inside_lem",
    "sample-of": "sample_of_lem",
    "second-row": "second_row_lem",
    "sign-of": "sign_of_lem",
    "stage-of": "stage_of_lem",
    "tail-test": "tail_test_lem",
    "targets-lsp": "targets_lsp_lem",
    "targets-mcp": "targets_mcp_lem",
    "turn-nonzero": "turn_nonzero_lem",
    "turn-zero": "turn_zero_lem",
    "with-noise": "with_noise_lem",
    "with-pulse": "with_pulse_lem",
    "with-sound": "with_sound_lem",
    "word-of": "word_of_lem",
    "low-end": "low_end_lem",
    "soundBy": "SoundBy",
    "zeroFrom": "ZeroFrom",
}

# Lemmas that are spelled like a word already, and where they stand: file, old, new.
LIKE = [
    ("crates/mglsa/proofs/PairLaws.antt", "both_of", "both_of_lem"),
    ("crates/elementary/proofs/Patterns.antt", "from_zero", "from_zero_lem"),
    ("crates/logarithm/proofs/Inside.antt", "from_zero", "from_zero_lem"),
    ("crates/lost/proofs/SqueezeLaws.antt", "from_zero", "from_zero_lem"),
    ("crates/power/proofs/Patterns.antt", "from_zero", "from_zero_lem"),
    ("crates/root/proofs/Cases.antt", "from_zero", "from_zero_lem"),
    ("crates/root/proofs/Laws.antt", "from_zero", "from_zero_lem"),
    ("crates/pcm/proofs/SampleLaws.antt", "high_end", "high_end_lem"),
    ("crates/stability/specs/Examples.antt", "high_end", "high_end_lem"),
    ("crates/trips/proofs/StayLaws.antt", "one_form", "one_form_lem"),
]

WORD = re.compile(r"[^\s(){}\[\];,.:@\"«»`]+")
STYLED = re.compile(r"^[a-z0-9][A-Za-z0-9_'₀-₉]*(?:-[A-Za-z0-9_'₀-₉]+)*$")
DECLARED = re.compile(r"(?m)^[ \t]*(?:(?:abbrev|unfoldable|pub|let|where|in|mutual)[ \t]+)*([^\s(){}.;,@\"«»:]+)(?: \{[^{}\n]*\}| \([^()\n]*\))* :(?!:)")
OWN = re.compile(r"^Rattle\.([a-z_0-9]+)\.")
USE = re.compile(r"(?m)^(?:pub )?(?:ghost )?use ([^\s;{]+?)\.?(?:\{([^}]*)\})?(?: as \S+)?;?$")
COMMENT = re.compile(r"--[^\n]*")


def snake(name):
    name = re.sub(r"(?<=[a-z0-9])([A-Z])", lambda m: "_" + m[1].lower(), name)
    return name.replace("-", "_")


def styled(name):
    return bool(STYLED.match(name)) and snake(name) != name


def walk(root, *ends):
    for folder, dirs, files in os.walk(root):
        dirs[:] = sorted(d for d in dirs if d not in ("out", "target", ".git"))
        for f in sorted(files):
            if f.endswith(ends):
                yield os.path.join(folder, f)


def read(path):
    with open(path, encoding="utf-8") as f:
        return f.read()


def imports(text, crates):
    """The names that a file imports from libraries, and those that it imports from this repository's crates."""
    kit, own = set(), set()
    for m in USE.finditer(text):
        path, names = m[1], m[2]
        if not names:
            continue
        head = OWN.match(path + ".")
        to = own if head and head[1] in crates else kit
        for n in names.split(","):
            to.add(n.strip().split(" as ")[0].strip())
    return kit, own


def is_proof(path):
    return path.endswith(("/Proof.antt", "/Answers.antt", "/Invariants.antt"))


def goals(text):
    """The names of goals in a function's proof file: they are the check's."""
    made = set(re.findall(r"(?:Need|need|goal)[-.]([^\s(){}.;,]+)", text))
    made |= set(re.findall(r"(?:invariant|decreases)-[^\s(){}.;,]+", text))
    made |= set(re.findall(r"(?m)^(\S+) : (?:tie|goal)\.", text))
    made |= set(re.findall(r"\S+-spec\b", text))
    return made


def main():
    args = sys.argv[1:]
    check = "--check" in args
    args = [a for a in args if a != "--check"]
    root = args[0] if args else "."
    crates = set(os.listdir(os.path.join(root, "crates")))
    antt = list(walk(os.path.join(root, "crates"), ".antt"))
    table = {}
    for path in antt:
        text = COMMENT.sub(" ", read(path))
        kit, own = imports(text, crates)
        made = goals(text) if is_proof(path) else set()
        for m in DECLARED.finditer(text):
            if m[1] not in made and m[1] not in kit and styled(m[1]):
                table[m[1]] = OTHER.get(m[1], snake(m[1]))
    fallen = collections.defaultdict(set)

    def turner(path, stay, words):
        def one(m):
            w = m[0]
            if w in stay or w not in table:
                return w
            before = m.string[: m.start()]
            if before.endswith("."):
                head = re.search(r"([^\s(){}\[\];,\"]+)\.$", before)
                if "-" in w and not (head and head[1].split(".")[0] == "Rattle"):
                    return w
            words[w] = table[w]
            return table[w]

        return one

    def spans(text, one):
        return re.sub(r"`[^`\n]*`", lambda s: WORD.sub(one, s[0]), text)

    def antt_text(path, text):
        kit, own = imports(COMMENT.sub(" ", text), crates)
        stay = (kit - own) | (goals(text) if is_proof(path) else set())
        words = {}
        one = turner(path, stay, words)
        out, at = [], 0
        for m in re.finditer(r"--[^\n]*", text):
            out.append(WORD.sub(one, text[at : m.start()]))
            out.append(spans(m[0], one))
            at = m.end()
        out.append(WORD.sub(one, text[at:]))
        fall(path, text, words, stay)
        return "".join(out)

    def fall(path, text, words, stay):
        bare = set(WORD.findall(re.sub(r"(?:--|//)[^\n]*", " ", text)))
        by = collections.defaultdict(set)
        for old, new in words.items():
            by[new].add(old)
            if new in bare:
                by[new].add(new)
        for new, olds in by.items():
            if len(olds) > 1:
                fallen[(new, tuple(sorted(olds)))].add(os.path.relpath(path, root))

    def rt_text(path, text):
        kit, own = imports(text, crates)
        words = {}
        one = turner(path, kit - own, words)
        out, at = [], 0
        for m in re.finditer(r"//[^\n]*|\"(?:[^\"\\]|\\.)*\"", text):
            out.append(WORD.sub(one, text[at : m.start()]))
            out.append(spans(m[0], one) if m[0][0] == "/" else m[0])
            at = m.end()
        out.append(WORD.sub(one, text[at:]))
        fall(path, text, words, kit)
        return "".join(out)

    changed = 0
    for where, old, new in LIKE:
        path = os.path.join(root, where)
        if not check and os.path.exists(path):
            write(path, re.sub(rf"(?<![\w'.-]){old}(?![\w'-])", new, read(path)), check)
    for path in antt:
        changed += write(path, antt_text(path, read(path)), check)
    for path in walk(os.path.join(root, "crates"), ".rt", ".edit"):
        changed += write(path, rt_text(path, read(path)), check)
    for path in walk(root, ".md"):
        if "/shared/" not in path:
            changed += write(path, spans(read(path), turner(path, set(), {})), check)
    for (new, olds), where in sorted(fallen.items()):
        print(f"falls together: {new} from {', '.join(olds)} in {', '.join(sorted(where)[:6])}{' ..' if len(where) > 6 else ''}")
    print(f"{len(table)} names, {changed} files")


def write(path, text, check):
    if text == read(path):
        return 0
    if not check:
        with open(path, "w", encoding="utf-8") as f:
            f.write(text)
    return 1


main()

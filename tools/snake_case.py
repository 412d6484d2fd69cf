#!/usr/bin/env python3
"""Respells the repository's own words in snake case: definitions, constructors, record fields and lemmas of specs/ and proofs/.

usage: python3 tools/snake_case.py [--dry]     at the top of the repository

Types and modules stay in camel case. Names of the library, and the names of goals that the check makes, stay as they are.
In src/ it turns the words of clauses; strings, inputs and outputs are not touched. It says which names would fall together, and SPECIAL parts them.
"""

import collections
import glob
import re
import sys

IDENT = re.compile(r"[A-Za-z_][A-Za-z0-9_']*(?:-[A-Za-z0-9_']+)*")
MODIFIERS = r"(?:(?:abbrev|unfoldable|pub|private|opaque) )*"
GENERATED = re.compile(r"\b(?:goal|given|need)\.([A-Za-z_][A-Za-z0-9_'-]*)")
FROM_KIT = re.compile(r"^(?:ghost )?use (?:Rattle\.std\.|mathlib\.|native\.|lib\.|Prim\.)[^{]*\{([^}]*)\}", re.M)


def files():
    for folder in ("specs", "proofs"):
        yield from sorted(glob.glob(f"crates/*/{folder}/**/*.antt", recursive=True))


def needs(name):
    return "-" in name or re.search(r"[a-z0-9][A-Z]", name) and name[0].islower()


def snake(name):
    name = name.replace("-", "_")
    if name[0].islower():
        name = re.sub(r"(?<=[a-z0-9])([A-Z])", lambda m: "_" + m[1].lower(), name)
    return name


def without_comment(line):
    return re.sub(r"(^|\s)--\s.*", "", line)


def own_names(texts):
    """Names that a file of specs/ or proofs/ defines, and names that an import gives."""
    names = set()
    for path, text in texts.items():
        generated = set(GENERATED.findall(text))
        for line in text.split("\n"):
            line = without_comment(line)
            m = re.match(r"\s*" + MODIFIERS + r"([A-Za-z_][A-Za-z0-9_']*(?:-[A-Za-z0-9_']+)*)\s*:(?!=)", line)
            if m and m[1] not in generated:
                names.add(m[1])
            for m in re.finditer(r"\bas ([A-Za-z_][A-Za-z0-9_'-]*)", line):
                if line.lstrip().startswith(("use", "ghost use")):
                    names.add(m[1])
    return names


def main(dry):
    antt = {p: open(p, encoding="utf-8").read() for p in files()}
    rt = {p: open(p, encoding="utf-8").read() for p in sorted(glob.glob("crates/*/src/**/*.rt", recursive=True))}
    kit = set()
    for text in list(antt.values()) + list(rt.values()):
        for m in FROM_KIT.finditer(text):
            kit |= {n.strip().split(" as ")[0] for n in m[1].split(",")}
    own = {n for n in own_names(antt) if needs(n)}
    for text in rt.values():
        for line in text.split("\n"):
            if line.startswith("ghost use"):
                own |= {n for n in re.findall(r"\bas ([A-Za-z_][A-Za-z0-9_'-]*)", line) if needs(n)}
    generated = set()
    for text in antt.values():
        generated |= set(GENERATED.findall(text))
    both = sorted(own & (kit | generated))
    turned = {n: SPECIAL.get(n) or snake(n) for n in own - generated}
    words = collections.Counter()
    for text in list(antt.values()) + list(rt.values()):
        words.update(IDENT.findall(text))
    news = collections.defaultdict(set)
    for old, new in turned.items():
        news[new].add(old)
    for new, olds in sorted(news.items()):
        if len(olds) > 1 or words[new]:
            print(f"falls together: {sorted(olds)} -> {new} ({words[new]} uses already)")
    print("also names of the library or of goals:", both)
    if dry:
        print(len(turned), "names")
        return
    for path, text in antt.items():
        mine = set()
        for m in FROM_KIT.finditer(text):
            mine |= {n.strip() for n in m[1].split(",")}

        def turn(m):
            n = m[0]
            return turned[n] if n in turned and n not in mine else n

        new = IDENT.sub(turn, text)
        *olds, word = ONE_WORD.get(path, ("",))
        for old in olds:
            new = re.sub(r"(?<![\w'-])" + old + r"(?![\w'-])", word, new)
        if new != text:
            open(path, "w", encoding="utf-8").write(new)
    for path, text in rt.items():
        def turn_line(line):
            parts = re.split(r'("(?:[^"\\]|\\.)*")', line)
            return "".join(p if p.startswith('"') else IDENT.sub(lambda m: turned.get(m[0], m[0]), p) for p in parts)

        new = "\n".join(turn_line(l) for l in text.split("\n"))
        if new != text:
            open(path, "w", encoding="utf-8").write(new)
    print(len(turned), "names")


# Names that would fall together with a function of src/ in scope beside them, or with one another.
SPECIAL = {
    "areDigits": "are_all_digits",
    "bit-xor": "bit_times_xor",
    "defaultField": "the_default_field",
    "fieldLine": "naming_line",
    "fieldName": "field_name_of",
    "joinedTap": "joined_tap_of",
    "keywordOf": "keyword_for",
    "knownAnswers": "known_answer_list",
    "layerWord": "layer_word_of",
    "notClosed": "unclosed",
    "numberDue": "number_due_of",
    "otherRow": "other_row_of",
    "otherTaps": "other_taps_of",
    "placeDue": "place_due_of",
    "rowDiscrepancy": "discrepancy_of_row",
    "rowFeedback": "feedback_of_row",
    "scratchCells": "scratch_cells_for",
    "verdictWord": "verdict_word_of",
}

# What was two names of the library, and is one now.
ONE_WORD = {
    "crates/bit_polynomials/specs/Polynomials.antt": ("bit-xor", "bitXor", "bit_xor"),
    "crates/table/specs/Logarithms.antt": ("bit-xor", "bitXor", "bit_xor"),
}

if __name__ == "__main__":
    main("--dry" in sys.argv[1:])

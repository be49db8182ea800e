#!/usr/bin/env python3
"""Brings the definitions and lemmas of this repository to one spelling: words in snake case, types in camel case.

usage: tools/respell.py [FOLDER]    once, right after the kit's port.py, on the same tree

A name of specs/ or proofs/ that has a - inside (serial-order, Keeps-serializable) becomes serial_order, KeepsSerializable,
in every .antt file, in the clauses of every .rt file, and between backticks in the documents. Functions of src/, strings,
inputs and outputs are not touched, and neither are names of the kit's library nor those of goals (in the files Answers.antt
and Invariants.antt, what stands behind a dot or at the head of an answer), which follow the kit.
"""

import collections
import glob
import os
import re
import sys

# Names of the kit's library that have a - inside.
OF_THE_KIT = set("""
All-append All-weaker add-one append-nil cond-false cond-true div-div-eq-div-mul drop-cons drop-drop drop-set-add drop-set-lt
drop_of_length-le eq-eqb eqb-false eqb-true get_or-drop get_or-replicate get_or-set_other get_or-set_same le-leb le-ltb
leb-false leb-true length-append length-decimal-le length-drop length-map length-replicate length-set length-take
length-take-le lt-ltb ltb-false ltb-true map-map not-true slice_get-get_or sub-zero suc-add take-append-add
take-append-drop take-append-le take-suc-set take-take to_z-of_z
""".split())
# Names that would not read well by the rule alone.
BY_HAND = {
    "row-after-++": "row_after_append",
    "right-++": "right_append",
    "touches-++": "touches_append",
    "getD-mapped": "get_or_mapped",
    "getD-set-default": "get_or_set_default",
    "valueAfter-ge": "digits_value_after_ge",
    # port.py takes it for a name of the library's
    "Goes_on": "GoesOn",
}
NAME = re.compile(r"""[^\s(){}\[\].;,@`"«»:]+""")
OWN_FORM = re.compile(r"[A-Za-z][A-Za-z0-9_'₁₂]*(?:-[A-Za-z0-9][A-Za-z0-9_'₁₂]*)+[⁺⁻]?")
IS_ANSWER = re.compile(r"/proofs/.+/(Answers|Invariants)\.antt$")
A_USE = re.compile(r"(?m)^(?:pub |ghost )*use ([^\s{]+)\.\{([^}]*)\}")
A_FIELD = re.compile(r"(?m)^  (?:pub )?(\S+) :(?=\s)")


def new_name(old):
    if old in BY_HAND:
        return BY_HAND[old]
    if old[0].isupper():
        return "".join(part[0].upper() + part[1:] for part in old.split("-"))
    return old.replace("-", "_")


def is_own(name):
    return name in BY_HAND or (OWN_FORM.fullmatch(name) and name not in OF_THE_KIT)


def without_comments(text):
    return re.sub(r"(?m)(^|\s)--(\s.*)?$", r"\1", text)


def names_in(text):
    return {m[0] for m in NAME.finditer(text) if is_own(m[0])}


def replaced(text, table):
    return NAME.sub(lambda m: table.get(m[0], m[0]), text)


def in_answers(text, own, fields):
    """Renames what is imported, and the fields of the repository's own records."""
    imported = set()
    for m in A_USE.finditer(text):
        imported |= names_in(m[2])
    table = {it: new_name(it) for it in imported if it in own}
    of_fields = {it: new_name(it) for it in fields}

    def turned(m):
        name, before, after = m[0], text[: m.start()], text[m.end() :]
        if before.endswith("."):
            return of_fields.get(name, name)
        if re.match(r" : goal\.", after) or re.search(r"(^|\n)(pub )?$", before):
            return name
        return table.get(name, of_fields.get(name, name))

    return NAME.sub(turned, text)


def in_source(text, table):
    """Renames in clauses and comments, not in strings."""
    parts = re.split(r'(b?"(?:\\.|[^"\\\n])*")', text)
    return "".join(part if i % 2 else replaced(part, table) for i, part in enumerate(parts))


def in_document(text, table):
    return re.sub(r"`[^`\n]+`", lambda m: replaced(m[0], table), text)


def main(top):
    os.chdir(top)
    paths = [p for p in glob.glob("crates/*/*/**/*.antt", recursive=True) if "/out/" not in p]
    sources = glob.glob("crates/*/src/**/*.rt", recursive=True)
    documents = ["README.md", *glob.glob("docs/*.md")]
    texts = {p: open(p, encoding="utf-8").read() for p in paths + sources + documents if os.path.exists(p)}
    own, fields = set(), set()
    for p in paths:
        if not IS_ANSWER.search(p):
            code = without_comments(texts[p])
            own |= names_in(A_USE.sub("", code))
            fields |= {it for it in A_FIELD.findall(code) if is_own(it)}
    table = {it: new_name(it) for it in own}
    fallen = collections.defaultdict(list)
    for old, new in table.items():
        fallen[new].append(old)
    for new, olds in sorted(fallen.items()):
        if len(olds) > 1:
            print(f"fall together as {new}: {' '.join(sorted(olds))}")
    for p, text in texts.items():
        if p.endswith(".md"):
            new = in_document(text, table)
        elif p.endswith(".rt"):
            new = in_source(text, table)
        elif IS_ANSWER.search(p):
            new = in_answers(text, own, fields)
        else:
            new = replaced(text, table)
        if new != text:
            with open(p, "w", encoding="utf-8") as it:
                it.write(new)
            print(f"respelled: {p}")


main(sys.argv[1] if len(sys.argv) > 1 else ".")

#!/usr/bin/env python3
"""Spells the repository's own definitions and lemmas as the library spells its own.

usage: python3 tools/respell.py     once, at the top, over what the kit's port.py has turned

Words of a name are joined by an underscore, facts and records stand in camel case, and a dash joins two names alone:
tools/respell.tsv has a row for each name, old and new. In a function's proof files the names that Rattle makes of the
code keep the code's own spelling: a name of the code with its underscores, and dashes between names.
"""

import os
import re

HERE = os.path.dirname(os.path.realpath(__file__))
WORD = re.compile(r'[^\s(){}\[\].;,@"«»`:*|&!?<>=/+]+')
STRING = re.compile(r'"(?:[^"\\\n]|\\.)*"')
MADE = re.compile(r"/proofs/(.*/)?(Answers|Invariants|Proof|Choices)\.antt$")
OF_RATTLE = ["overflow_add", "overflow_sub", "overflow_mul", "overflow_div", "overflow_shl", "overflow_shr", "overflow_cast", "overflow_step", "overflow_neg", "slice_bounds", "offset_bounds", "nonzero_div", "nonzero_rem", "invariant_of", "in_ok", "in_err", "in_default"]
OF_LIBRARY = ["as_bytes", "copy_from_slice", "copy_within", "deref_mut", "from_residual", "unsigned_abs", "wrapping_neg", "wrapping_mul", "wrapping_add", "as_slice", "to_owned", "checked_add", "checked_mul", "copy_to"]


def table():
    with open(os.path.join(HERE, "respell.tsv"), encoding="utf-8") as f:
        return dict(line.rstrip("\n").split("\t") for line in f if "\t" in line)


def outside_strings(text, turn):
    at, out = 0, []
    for m in STRING.finditer(text):
        out += [turn(text[at : m.start()]), m[0]]
        at = m.end()
    return "".join(out + [turn(text[at:])])


def own_names(text, names):
    return WORD.sub(lambda m: names.get(m[0], m[0]), text)


def code_names(folder):
    """The names of the code that have an underscore."""
    found = set(OF_RATTLE + OF_LIBRARY)
    for f in files(folder):
        if f.endswith(".rt"):
            with open(f, encoding="utf-8") as it:
                found |= set(re.findall(r"[A-Za-z0-9]+(?:_[A-Za-z0-9]+)+", re.sub(r"//.*", "", it.read())))
    return found


def made_names(text, code):
    """Names behind `goal.`, `c.` and their like, and where a file declares or imports a goal."""
    known = {n.replace("_", "-"): n for n in code}
    any_of = re.compile(r"(?<!\w)(" + "|".join(re.escape(k) for k in sorted(known, key=lambda n: (-len(n), n))) + r")(?![A-Za-z0-9_])")

    def spell(name):
        return any_of.sub(lambda m: known[m[1]], name)

    declared = set(re.findall(r"(?m)^ *(?:abbrev )?pub (\S+) : goal\.", text))
    declared |= {w.strip() for m in re.finditer(r"\.(?:Goals|Given)\.\{([^}]*)\}", text) for w in m[1].split(",")}
    text = re.sub(r"(?<=[\w)]\.)([A-Za-z][\w'+]*(?:-[\w'+]+)+)", lambda m: spell(m[1]), text)
    return WORD_DASHED.sub(lambda m: spell(m[0]) if m[0] in declared else m[0], text)


WORD_DASHED = re.compile(r'[^\s(){}.;,@"«»]+')


def files(folder):
    for root, dirs, names in os.walk(folder):
        dirs[:] = sorted(d for d in dirs if d not in ("out", "target"))
        for n in sorted(names):
            yield os.path.join(root, n)


def main():
    names = table()
    top = os.path.dirname(HERE)
    code = code_names(os.path.join(top, "crates"))
    for f in files(os.path.join(top, "crates")):
        if not f.endswith((".rt", ".antt", ".edit")):
            continue
        with open(f, encoding="utf-8") as it:
            text = it.read()
        turned = outside_strings(text, lambda t: own_names(t, names))
        if MADE.search(f):
            turned = made_names(turned, code)
        if turned != text:
            with open(f, "w", encoding="utf-8") as it:
                it.write(turned)


main()

#!/usr/bin/env python3
# SPDX-License-Identifier: MIT OR Apache-2.0
"""Spells this repository's own definitions, lemmas, fields and constructors in snake case: planOf is plan_of, by-the-clock is by_the_clock.

usage: tools/snake_names.py [--list]     at the top of a checkout that the kit's port.py has turned; --list writes nothing

Only names that a text of specs/ or proofs/ here declares are turned, and in a file none that it takes from a library. Pages have names between
backticks: there they are turned too. What would fall together with another name is spelled by hand, in APART.
"""
import glob
import os
import re
import sys

NAME = r"[^\s(){}\[\].;,@\"«»`|]+"
DECLARES = re.compile(rf"^ *(?:(?:pub|abbrev|unfoldable|data|record) )*({NAME})(?: [{{(].*)? :(?: |$)", re.M)
LETS = re.compile(rf"\b(?:let|open) ({NAME}) (?:=|:)")
BINDS = re.compile(rf"[({{]({NAME}(?: {NAME})*) :")
USES = re.compile(r"use ([^\s;{]+)\.\{([^}]*)\}")
WHOLE = re.compile(r"use ([^\s;{]+)\.([^\s;{.]+)(?: as (\S+))?;?$", re.M)
OURS = re.compile(r"Rattle\.(?!std\b|core\b|std_|io\b|libc\b|os\b)")
# Two names that would be one.
APART = {
    "begin-by": "begin_by_lem",
    "ended-run": "ended_run_lem",
    "fate-run": "fate_run_lem",
    "float-at": "float_at_lem",
    "glyph-by": "glyph_by_lem",
    "grid-time": "grid_time_lem",
    "in-units": "in_units_lem",
    "is-nan": "is_nan_lem",
    "is-nine": "is_nine_lem",
    "is-short": "is_short_lem",
    "least-before": "at_least_before",
    "middle-zero": "middle_zero_lem",
    "most-before": "at_most_before",
    "nearest-double": "nearest_double_lem",
    "never-all": "never_all_lem",
    "no-sample": "no_sample_lem",
    "nothing-more": "nothing_more_lem",
    "on-time": "in_time",
    "point-on": "point_on_lem",
    "rest-zero": "rest_zero_lem",
    "root-digits": "root_digits_lem",
    "step-on": "step_on_lem",
    "walk-on": "walk_on_lem",
}
# Lemmas that port.py spelled like a definition: the file, or the folder, and the name.
LEMMAS = {
    "crates/counting/proofs/Rooms.antt": "has_room",
    "crates/stored/proofs/Again.antt": "float_word",
    "crates/stored/proofs/Cleaned.antt": "is_known",
    "crates/fastpath/proofs/Looked.antt": "is_made",
    "crates/sentences/proofs/Inner.antt": "first_past",
    "crates/rules/proofs/": "passes_on",
}
# Names that Rattle makes.
MADE = re.compile(r"^(?:Need|InvT|MeasureT|Inv|μ|δ)-|^goal$")


def snake(name):
    if name in APART:
        return APART[name]
    if MADE.search(name) or not re.match(r"[a-z]", name):
        return name
    if not re.fullmatch(r"[A-Za-z0-9_'\-]+", name):
        return name
    words = re.sub(r"(?<=[a-z0-9])([A-Z])(?=[a-z0-9]|$)", lambda m: "_" + m[1].lower(), name)
    words = re.sub(r"(?<=[a-z0-9])([A-Z]+)", lambda m: "_" + m[1].lower(), words)
    return words.replace("-", "_")


def texts(*kinds):
    for kind in kinds:
        yield from sorted(p for p in glob.glob(kind, recursive=True) if "/out/" not in p)


def read(path):
    with open(path, encoding="utf-8") as f:
        return f.read()


def taken(text):
    """The names that a text takes from a library."""
    names = set()
    for module, items in USES.findall(text):
        if not OURS.match(module):
            for item in items.split(","):
                names.update(item.replace(" as ", " ").split())
    for module, last, alias in WHOLE.findall(text):
        if not OURS.match(module):
            names.add(alias or last)
    return names


def declared():
    names = set()
    for path in texts("crates/*/specs/**/*.antt", "crates/*/proofs/**/*.antt"):
        text = re.sub(r"--.*", "", read(path))
        here = set(DECLARES.findall(text)) | set(LETS.findall(text))
        for row in BINDS.findall(text):
            here.update(row.split())
        names |= here - taken(text)
    return names


def turn(text, names, kept):
    def word(m):
        it = m[0]
        if it in kept or it not in names:
            return it
        return names[it]

    return re.sub(NAME, word, text)


def main(argv):
    names = {n: snake(n) for n in declared()}
    names = {a: b for a, b in names.items() if a != b}
    if "--list" in argv:
        for a, b in sorted(names.items()):
            print(a, b)
        return
    for path in texts("crates/*/specs/**/*.antt", "crates/*/proofs/**/*.antt", "crates/*/src/**/*.rt", "crates/*/must-fail/*.edit"):
        text = read(path)
        new = text
        for where, lemma in LEMMAS.items():
            if path.startswith(where):
                new = turn(new, {lemma: lemma + "_lem"}, set())
        new = turn(new, names, taken(text))
        if new != text:
            with open(path, "w", encoding="utf-8") as f:
                f.write(new)
    for path in texts("*.md", "docs/**/*.md", "examples/**/*.md", "bench/**/*.md", "tests/**/*.md", "bindings/**/*.md", "oracle/**/*.md"):
        text = read(path)
        new = re.sub(r"`[^`\n]*`", lambda m: turn(m[0], names, set()), text)
        if new != text:
            with open(path, "w", encoding="utf-8") as f:
                f.write(new)


if __name__ == "__main__":
    main(sys.argv[1:])

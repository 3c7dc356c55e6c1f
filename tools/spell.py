#!/usr/bin/env python3
"""Spells this repository's own definitions and lemmas in snake case: words of camel case and of dashes get underscores.

usage: tools/spell.py [--check] [--table] [TOP]      TOP is the top of the repository, by default the folder above this one
                                                     --check writes nothing, --table prints each name with its new spelling

What turns: a name of camel case with a small first letter, anywhere in .antt, .rt and .edit files and in code spans of .md files, if
these files declare or use it and the kit does not import it under that spelling; a name with dashes that a file of specs/ or a lemma file
of proofs/ declares. What Rattle makes (goals and steps of a function's proof) keeps its dashes. Strings and Rust's own names stay.
It lists names that fall together in a file, and writes all the same: a function of the source may have a definition's name, and a lemma
that would have one gets another, by the lists below. It is run once, after port.py: a second run would give those lists' definitions that name.
"""

import collections
import os
import re
import sys

check = "--check" in sys.argv
words = [w for w in sys.argv[1:] if not w.startswith("--")]
TOP = os.path.abspath(words[0] if words else os.path.join(os.path.dirname(os.path.abspath(__file__)), ".."))
CUT = r'\s(){}.;,@"«»`'
NAME = rf"[^{CUT}]+"
CAMEL = re.compile(r"[a-z][a-z0-9₀-₉]*(?:[A-Z][A-Za-z0-9₀-₉]*)+'*")
UNITS = ("mA", "mV", "aF")  # words of the comments, and no names
FLAGS = r"(?:abbrev |unfoldable |pub |opaque |private |data |record )*"
DECLARED = re.compile(rf"(?m)^\s*{FLAGS}({NAME})(?: \{{[^{{}}\n]*\}})* :(?=\s)")
USE = re.compile(r"(?m)^\s*(?:pub )?(?:ghost )?use ([^\s;{]+?)\.?(?:\{([^}]*)\})?(?: as \S+?)?;?$")


def files(folder, endings):
    for at, dirs, names in os.walk(os.path.join(TOP, folder)):
        dirs[:] = sorted(d for d in dirs if d not in ("out", "target", ".git"))
        for name in sorted(names):
            if name.endswith(endings):
                yield os.path.join(at, name)


def read(path):
    with open(path, encoding="utf-8") as f:
        return f.read()


def of_function(path):
    """Whether a file of proofs/ is a function's own proof."""
    inside = path.split("/proofs/")
    return len(inside) == 2 and "/" in inside[1] and os.path.basename(path) in ("Proof.antt", "Answers.antt", "Invariants.antt")


def is_own(module):
    return module.startswith("Rattle.") and not module.startswith("Rattle.std.") or module.startswith(".") or "." not in module


antt = {p: read(p) for p in files("crates", ".antt")}
rust = {p: read(p) for p in files("crates", ".rt")}
edits = {p: read(p) for folder in ("crates", "must-fail-long") for p in files(folder, ".edit")}
pages = {p: read(p) for p in files("docs", ".md")}
for name in ("README.md", "CHANGELOG.md", "second/README.md", "both/README.md"):
    if os.path.exists(os.path.join(TOP, name)):
        pages[os.path.join(TOP, name)] = read(os.path.join(TOP, name))

foreign = set()
for text in list(antt.values()) + list(rust.values()):
    for module, names in USE.findall(text):
        if not is_own(module):
            foreign.update(re.findall(NAME, names or module.split(".")[-1]))

declared = set()
for path, text in antt.items():
    if not of_function(path):
        declared.update(DECLARED.findall(text))


def snake(name):
    name = re.sub(r"(?<=[a-z0-9₀-₉])[A-Z]", lambda m: "_" + m[0].lower(), name)
    return re.sub(r"(?<=[A-Za-z0-9₀-₉'_])-(?=[A-Za-z0-9₀-₉])", "_", name)


table = {}
for text in list(antt.values()) + list(rust.values()):
    for name in re.findall(NAME, text):
        if CAMEL.fullmatch(name) and name not in foreign and name not in UNITS:
            table[name] = snake(name)
for name in declared:
    if "-" in name and re.fullmatch(r"[A-Za-z0-9₀-₉'_-]+", name) and name not in foreign and not name.startswith("Need-"):
        table[name] = snake(name)

# A lemma that would have a definition's name gets another, as the kit's style has it.
table.update(
    {
        "asked-rows": "asked_rows_lem",
        "charge-off": "charge_is_off",
        "discharge-off": "discharge_is_off",
        "gone-on": "gone_on_lem",
        "in-range": "lies_in_range",
        "is-done": "is_done_lem",
        "is-held": "is_held_lem",
        "is-nan": "is_nan_lem",
        "is-number": "is_number_lem",
        "is-reply": "is_reply_lem",
        "last-given": "last_given_lem",
        "lets-go": "lets_frame_go",
        "looked-up": "looked_up_lem",
        "recall-by": "recall_by_lem",
        "recovers-now": "recovers_here",
        "reply-bytes": "reply_bytes_lem",
        "used-up": "used_up_lem",
    }
)
# The same where the kit's script had spelled the lemma already: in these crates' lemma files, and where these are imported.
LEMMAS = {
    "all_digits": ("text",),
    "all_quiet": ("board",),
    "in_blocks": ("player", "totals"),
    "in_order": ("editions", "classes", "totals"),
    "is_digit": ("text",),
    "left_in": ("board",),
    "lets_go": ("life",),
    "no_bytes": ("board", "totals"),
    "not_found": ("classes",),
}

STRING = re.compile(r'"(?:\\.|[^"\\\n])*"')
TOKEN = re.compile(NAME)


def turn(text, dashes=True, strings=True):
    def word(m):
        it = m[0]
        if it in table and (dashes or "-" not in it):
            return table[it]
        return it

    if strings:
        return TOKEN.sub(word, text)
    out, at = [], 0
    for m in STRING.finditer(text):
        out += [TOKEN.sub(word, text[at : m.start()]), m[0]]
        at = m.end()
    return "".join(out) + TOKEN.sub(word, text[at:])


def turn_function(text):
    """A function's own proof: dashed names turn only where an own module is their source, since Rattle's have dashes too."""
    own = set()
    for module, names in USE.findall(text):
        if is_own(module):
            own.update(re.findall(NAME, names or module.split(".")[-1]))

    def word(m):
        it = m[0]
        if it in table and ("-" not in it or it in own):
            return table[it]
        return it

    return TOKEN.sub(word, text)


def turn_page(text):
    return re.sub(r"`[^`\n]*`|(?s:```.*?```)|\bcrates/[^\s)]*", lambda m: turn(m[0]), text)


def crate(path):
    return os.path.relpath(path, os.path.join(TOP, "crates")).split("/")[0]


turned = {}
for path, text in antt.items():
    own = {it for it, where in LEMMAS.items() if crate(path) in where and "/proofs/" in path}
    if of_function(path):
        own = {it for module, names in USE.findall(text) if ".proofs." in module for it in own & set(re.findall(NAME, names))}
    text = TOKEN.sub(lambda m: m[0] + "_lem" if m[0] in own else m[0], text)
    turned[path] = turn_function(text) if of_function(path) else turn(text)
for path, text in rust.items():
    turned[path] = turn(text, strings=False)
for path, text in edits.items():
    turned[path] = turn(text, strings=False)
for path, text in pages.items():
    turned[path] = turn_page(text)

# names that fall together: in one file, two spellings that become one
met = []
for path, text in list(antt.items()):
    own = {it for it, where in LEMMAS.items() if crate(path) in where and "/proofs/" in path}
    names = set(re.findall(NAME, text)) - own
    sources = collections.defaultdict(set)
    for name in names:
        sources[table.get(name, name)].add(name)
    for new, old in sorted(sources.items()):
        if len(old) > 1:
            met.append(f"{os.path.relpath(path, TOP)}: {' and '.join(sorted(old))} would both be {new}")
print(f"{len(table)} names")
for line in met:
    print("meets: " + line)
if "--table" in sys.argv:
    for old, new in sorted(table.items()):
        print(f"{old}\t{new}")
if not check:
    for path, text in turned.items():
        if text != antt.get(path, rust.get(path, edits.get(path, pages.get(path)))):
            with open(path, "w", encoding="utf-8") as f:
                f.write(text)

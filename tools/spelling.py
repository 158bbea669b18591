#!/usr/bin/env python3
"""Spells the definitions and lemmas of crates/ as today's Rattle does: words in snake case.

usage: python3 tools/spelling.py    at the top of the repository, once, after the kit's own script

What is respelled is each name of specs/ and proofs/ with a part in camel case that begins small, as
`nameFault` and `orElse-first`; types and variants keep their capital. Names that would fall together
with another get the name that APART gives them. Functions of src/ are in snake case already.
"""

import os
import re

NAME = re.compile(r"(?<![\w'])[A-Za-z_][\w'-]*")

# A name that is given by hand, since its own spelling is another's: file (or folder) and names.
APART = {
    # The lemma takes the function's name with `_lem` where a definition has that name now.
    "crates/format/specs/Laws/Reads.antt": {"list_inside": "list_inside_lem"},
    "crates/format/specs/Laws/Header.antt": {"list_inside": "list_inside_lem"},
    "crates/image_data": {"string_bytes": "string_bytes_lem"},
    "crates/salvage_spec/specs/Laws/Steps.antt": {"of_cut": "of_cut_none"},
    "crates/squeeze_paths": {"path_bytes": "path_bytes_lem"},
    "crates": {
        "chain_length": "chain_length_lem",
        "among_first": "among_first_lem",
        # `string_bytes` is a word of the library, `bytes_left` a field of the record beside it.
        "stringBytes": "text_and_zero",
        "bytesLeft": "bytes_left_of",
        "wordsLeft": "words_left_of",
    },
}
# A step that the kit names after the variant `List`.
KEPT = {"in_List"}


def snake(name):
    def part(p):
        if not re.match(r"[a-z].*[A-Z]", p):
            return p
        return re.sub(r"([a-z0-9])([A-Z])", r"\1_\2", p).lower()

    return "-".join(part(p) for p in name.split("-"))


def files(*ends):
    for folder, dirs, found in os.walk("crates"):
        dirs[:] = sorted(d for d in dirs if d != "out")
        for f in sorted(found):
            if f.endswith(ends):
                yield os.path.join(folder, f)
    if ".md" in ends:
        yield "README.md"
        for f in sorted(os.listdir("docs")):
            if f.endswith(".md") and not f.startswith("PORT"):
                yield os.path.join("docs", f)


def read(path):
    with open(path, encoding="utf-8") as f:
        return f.read()


def camel():
    """The names in the code of specs/ and proofs/ that change, without those of comments."""
    names = set()
    for path in files(".antt"):
        code = re.sub(r"--.*", "", read(path))
        names |= {w for w in NAME.findall(code) if snake(w) != w}
    return names - KEPT


def main():
    # A file of the repository's own that was spelled before keeps its words.
    names = {w: snake(w) for w in camel()}
    for path in files(".antt", ".rt", ".edit", ".md"):
        mine = dict(names)
        for place, given in APART.items():
            if path == place or path.startswith(place + "/"):
                mine.update(given)
        if path.endswith(".md"):
            mine.update({w: n for w, n in APART["crates"].items() if w not in ("chain_length", "among_first")})
        before = read(path)
        after = NAME.sub(lambda m: mine.get(m.group(0), m.group(0)), before)
        if after != before:
            with open(path, "w", encoding="utf-8") as f:
                f.write(after)


main()

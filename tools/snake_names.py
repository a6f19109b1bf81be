#!/usr/bin/env python3
"""Respells the names of the repository's own definitions and lemmas: words in snake case, run once at the top, after port.py.

A dash stays where it joins the names of two functions or a type and a function, as in `size-ren` and `Ren-up`.
It changes files of specs/ and proofs/, and the clauses, ghost items and imports of src/; no function, string, input or output.
"""

import glob
import re
import sys

# A lemma's left side, the outer call first.
KEPT = set(
    "length-pasted rows-pasted length-encoded length-map cond-suc cond-ren put-lift ren-lift sub-lift ren-ren ups-up sub-ren"
    " ren-at ren-ups ren-sub sub-ups sub-sub at-vars ups-vars size-ren size-lift"
    " Mor-up Ren-up Ren-type Ren-term Ren-id Ren-off-term Ren-then G-ends H-ends H-here".split()
)

# Names that are no words of one case, or that a library's or a trait's name now hides.
RENAMED = {
    "causeNumber": "cause_number",
    "causeOf": "cause_of",
    "inThree": "in_three",
    "inSix": "in_six",
    "ofThree": "of_three",
    "ofSix": "of_six",
    "putMid-pasted": "put_mid-pasted",
    "length-six": "length-in_six",
    "length_three": "length-in_three",
    "at-getD": "at_get_or",
    "getD-zero": "get_or_zero",
    "none-at-0": "none_at_0",
    "n-positive": "n_positive",
    # The trait Quantifier has a law of the old name, which hides it there.
    "bodies": "bodies_under",
}

# Where `bodies` is the law.
LAWS = ("Least.antt", "equal_bounds.rt", "least_bound.rt")

TOKEN = re.compile(r"[^\s(){}\[\].;,@\"«»]+")
DECLARED = re.compile(r"^\s*(?:unfoldable |abbrev |data |record |pub |mutual )*((?:[^\s:(){}\[\],.]+ )*[^\s:(){}\[\],.]+) :(?: |$)")


def own_files():
    found = glob.glob("crates/*/specs/**/*.antt", recursive=True) + glob.glob("crates/*/proofs/**/*.antt", recursive=True)
    return sorted(found)


def is_made(path):
    return path.endswith(("/Answers.antt", "/Invariants.antt"))


def declared(paths):
    names = set()
    for path in paths:
        if is_made(path):
            continue
        for line in open(path):
            found = DECLARED.match(line)
            if found and not line.lstrip().startswith("--"):
                names.update(found.group(1).split())
    return names - {"pub", "abbrev", "data", "record", "unfoldable", "module", "_"}


def respelled(names):
    table = {}
    for name in names:
        if name in KEPT or name == "-":
            continue
        new = RENAMED.get(name, name.replace("-", "_") if re.search(r"[a-z0-9']-[a-z0-9]", name) else name)
        if new != name:
            table[name] = new
    for name, new in RENAMED.items():
        table.setdefault(name, new)
    return table


def replaced(text, table):
    return TOKEN.sub(lambda found: table.get(found.group(0), found.group(0)), text)


def antt(text, table):
    """A file of specs/ or proofs/ with its names respelled; its comments stay."""
    out = []
    for line in text.split("\n"):
        code, mark, comment = re.match(r"(.*?)(?:(^|\s)(--.*))?$", line).groups(default="")
        out.append(replaced(code, table) + mark + comment)
    return "\n".join(out)


def rattle(text, table):
    """The clauses, ghost items and imports of a source with their names respelled; its code has no names with a dash."""
    out = []
    for line in text.split("\n"):
        code, mark, comment = line.partition("//")
        if "ghost bodies:" not in code:
            code = replaced(code, table)
        out.append(code + mark + comment)
    return "\n".join(out)


def table_of(path, table):
    if path.endswith(LAWS):
        return {old: new for old, new in table.items() if old != "bodies"}
    return table


def main():
    paths = own_files()
    names = declared(paths)
    table = respelled(names)
    # No two names fall together, and none with a name that stands in these files already.
    used = set()
    for path in paths:
        used.update(TOKEN.findall(re.sub(r"(?m)(^|\s)--.*$", "", open(path).read())))
    by_new = {}
    for old, new in table.items():
        by_new.setdefault(new, []).append(old)
    together = {new: olds for new, olds in by_new.items() if len(olds) > 1 or (new in used and new not in table)}
    for new, olds in sorted(together.items()):
        print("look:", " ".join(olds), "->", new, "(stands already)" if new in used else "")
    if "--look" in sys.argv:
        return
    for path in paths:
        before = open(path).read()
        after = antt(before, table_of(path, table))
        if after != before:
            open(path, "w").write(after)
    for path in sorted(glob.glob("crates/*/src/**/*.rt", recursive=True)):
        before = open(path).read()
        after = rattle(before, table_of(path, table))
        if after != before:
            open(path, "w").write(after)
    print(len(table), "names respelled")


if __name__ == "__main__":
    main()

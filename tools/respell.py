#!/usr/bin/env python3
"""Respells the names that the files of specs/ and proofs/ declare: words in snake case, as `in_class` and `take_all`.

usage: respell.py [--check]     at the top of the repository

A name that begins with a small letter gets underscores for capitals and dashes; in one that begins with a capital only dashes go.
Functions of src/, strings and what libraries declare keep their names. --check only prints what would change and what would meet.
Run it once, behind port.py and before any edit by hand.
"""
import os
import re
import sys

NAME = r"[^\s(){}.;,@\"«»:\[\]]+"
DECLARED = re.compile(rf"(?m)^(?:(?:abbrev|pub|unfoldable|opaque|record|data|mutual|ruleset) )+«?({NAME})»?(?=[ :])|^«?({NAME})»?(?: \{{[^{{}}\n]*\}})* :(?= )")
FIELD = re.compile(rf"(?m)^  +(?:pub )?«?({NAME})»? :(?= )")
USE = re.compile(r"(?ms)^(?:pub |ghost )*use ([^\s;{]+?)(?:\.\{([^}]*)\})?(?: as ([^\s;]+))?;?$")
# What the rule would give twice, or what a word of the library, of Rust or of the tactics has already.
BY_HAND = {
    "first_some": "first_some_lem",
    "in_cell": "in_cell_lem",
    "last_line": "last_line_lem",
    "last_some": "last_some_lem",
    "last_word": "last_word_lem",
    "more_rows": "more_rows_lem",
    "one_line": "one_line_lem",
    "plain_word": "plain_word_lem",
    "table_step": "table_step_lem",
    "word_byte": "word_byte_lem",
    "isHeading": "is_heading_name",
    "isList": "is_list_name",
    "listItem": "list_item_text",
    "skipTags": "tags_to_skip",
    "whiteSpace": "white_space_of",
}
# Names that stay: generated ones, and what is spelled by a rule of its own.
STAY = set()
TOKEN = re.compile(r"(?P<string>\"(?:[^\"\\\n]|\\.)*\")|(?P<comment>--[^\n]*|//[^\n]*)|«(?P<quoted>[^»\n]*)»|(?P<name>[^\s(){}.;,@\"«»:\[\]∷]+|:)|(?P<other>.|\n)")


def crates():
    return sorted(c for c in os.listdir("crates") if os.path.isdir(f"crates/{c}/src"))


def files(*ends):
    for c in crates():
        for folder, dirs, names in os.walk(f"crates/{c}"):
            dirs[:] = sorted(d for d in dirs if d != "out")
            for n in sorted(names):
                if n.endswith(ends):
                    yield os.path.join(folder, n)


def is_of_function(path):
    """Whether the file is a proof of one function or cycle, which declares names of the check's own."""
    parts = path.split("/")
    return "proofs" in parts and ("Proof.antt" in parts[-1] or "Answers.antt" in parts[-1] or "Invariants.antt" in parts[-1] or any(p in ("Proof", "Answers") for p in parts))


def read(path):
    with open(path, encoding="utf-8") as f:
        return f.read()


def constructors(text):
    """The names that stand several to a line in a `data`."""
    for m in re.finditer(r"(?m)^(?:pub )?data .*? where\n((?:  .*\n)+)", text):
        for line in m[1].split("\n"):
            names = re.match(rf"  ((?:{NAME} )+){NAME} : ", line)
            if names and not names[1].startswith("pub "):
                yield from line.split(" : ")[0].split()


def declared():
    """name -> files, of definitions, lemmas, fields and constructors."""
    found = {}
    for path in files(".antt"):
        if is_of_function(path):
            continue
        text = re.sub(r"(?m)--.*$", "", read(path))
        for m in DECLARED.finditer(text):
            found.setdefault(m[1] or m[2], set()).add(path)
        for m in FIELD.finditer(text):
            found.setdefault(m[1], set()).add(path)
        for n in constructors(text):
            found.setdefault(n, set()).add(path)
    return found


def snake(name):
    if name in BY_HAND:
        return BY_HAND[name]
    if name in STAY:
        return name
    if re.search(r"[◌<>=+*/\\|&∷≡]", name):
        return name
    if name[:1].isupper():
        return name.replace("-", "_") if not re.fullmatch(r"[A-Z_0-9]+", name) else name
    words = re.sub(r"(?<=[a-z0-9'])[A-Z]", lambda m: "_" + m[0].lower(), name)
    return words.replace("-", "_")


def imports(text):
    """(names from the repository, names from libraries), as the file's use lines bring them."""
    own, foreign = set(), set()
    mine = set(crates())
    for m in USE.finditer(re.sub(r"(?m)--.*$", "", text)):
        path, names, alias = m[1], m[2], m[3]
        parts = path.split(".")
        is_mine = parts[0] == "Rattle" and len(parts) > 1 and parts[1] in mine
        into = own if is_mine else foreign
        if names is None:
            into.add(alias or parts[-1])
            continue
        for each in names.split(","):
            each = each.strip().strip("«»")
            if not each:
                continue
            words = re.split(r"\s+as\s+", each)
            for w in words:
                into.add(w.strip("«»"))
    return own, foreign


def turned(path, table):
    text = read(path)
    own, foreign = imports(text)
    here = {m[1] or m[2] for m in DECLARED.finditer(text)} | {m[1] for m in FIELD.finditer(text)}
    skip = foreign - own - here

    def one(m):
        if m["string"] is not None or m["other"] is not None:
            return m[0]
        if m["comment"] is not None:
            return re.sub(r"[A-Za-z][\w'-]*", lambda w: table.get(w[0], w[0]) if re.search(r"[a-z][A-Z]", w[0]) else w[0], m[0])
        name = m["quoted"] if m["quoted"] is not None else m["name"]
        if name in skip or name not in table:
            return m[0]
        return "«" + table[name] + "»" if m["quoted"] is not None else table[name]

    return text, TOKEN.sub(one, text)


def main():
    if "--help" in sys.argv:
        print(__doc__)
        return
    check = "--check" in sys.argv
    found = declared()
    table = {n: snake(n) for n in found if snake(n) != n}
    taken = {snake(n) for n in found if "-" not in n or n[:1].isupper()}
    for n in table:
        if "-" in n and not n[:1].isupper() and table[n] in taken:
            table[n] += "_lem"
    back = {}
    for n in found:
        back.setdefault(table.get(n, n), set()).add(n)
    if check:
        for new, olds in sorted(back.items()):
            if len(olds) > 1:
                print("meets", new, {o: sorted(found[o])[:3] for o in olds})
        print(len(found), "declared", len(table), "respelled")
        used = {}
        for path in files(".antt", ".rt"):
            text = read(path)
            own, foreign = imports(text)
            for m in TOKEN.finditer(text):
                n = m["name"]
                if n:
                    used.setdefault(n, set()).add(path)
        for old, new in sorted(table.items()):
            if new in used and new not in found:
                both = used[new] & used.get(old, set())
                if both:
                    print("stands already:", old, new, sorted(both)[:4])
        return
    n = 0
    for path in files(".antt", ".rt"):
        old, new = turned(path, table)
        if new != old:
            n += 1
            with open(path, "w", encoding="utf-8") as f:
                f.write(new)
    print(f"respell: {len(table)} names, {n} files")


if __name__ == "__main__":
    main()

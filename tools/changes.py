"""Changes the definitions in crate `spec` and sees that a proof of crate `recovery` refuses each change.

    python3 tools/changes.py            # all changes
    python3 tools/changes.py fence      # those whose name holds the word

Each change is made in a copy of the two crates, without the cases of `spec`, which evaluate the definitions: the definitions must still be
taken by `spec`, and a law of `recovery` must fail. Prints that law for each, and exits with 1 if a change is accepted.
"""
import os
import re
import shutil
import subprocess
import sys
import tempfile

import command_line

CRATES = os.path.join(os.path.dirname(os.path.abspath(__file__)), "..", "crates")

# a name, and its edits: a file of `spec`, a text in it, and the text in its place
CHANGES = [
    ("`_` dropped from the escape set", [
        ("specs/Md/Constants.antt", 'ALWAYS_ESCAPED = ascii "\\\\`*_[]<|~"', 'ALWAYS_ESCAPED = ascii "\\\\`*[]<|~"')]),
    # the code of `ListKind::offset` follows, so that it still meets its contract
    ("step of an ordered list max(digits + 1, 4)", [
        ("specs/Md/Ctx.antt", "offset_of (Ol n) = max (length (decimal n) + 2)", "offset_of (Ol n) = max (length (decimal n) + 1)"),
        ("src/ctx.rt", "const NUMBER_END: usize = 2;", "const NUMBER_END: usize = 1;")]),
    ("fence one shorter", [
        ("specs/Md/Elements/Code.antt", "backticks (max (max_backtick_run content) 2 + 1)", "backticks (max (max_backtick_run content) 2)")]),
    ("closing mark of an emphasis left out", [
        ("specs/Md/Elements/Emphasis.antt", 'cond (ends_with (ascii " ") begun) (drop_end 1 begun ++ (marker ++ ascii " ")) (begun ++ marker)', 'cond (ends_with (ascii " ") begun) (drop_end 1 begun ++ ascii " ") begun')]),
    ("blank at the end of an emphasis inside its marks", [
        ("specs/Md/Elements/Emphasis.antt", 'cond (ends_with (ascii " ") begun) (drop_end 1 begun ++ (marker ++ ascii " ")) (begun ++ marker)', "begun ++ marker")]),
    ("reading: two asterisks are emphasis", [
        ("specs/Pieces/EmphasisReading.antt", "taken m n = cond (leb 2 m && leb 2 n) 2 1", "taken m n = 1")]),
    ("first data row as heading", [
        ("specs/Md/Elements/Table.antt", "all_th (c ∷ row) = c.is_th && all_th row", "all_th (c ∷ row) = all_th row")]),
    # neither the close of the first nor the opening of the second leaves one
    ("no blank line between two paragraphs", [
        ("specs/Md/Serializer.antt", "let end = cond (is_tight opts name attrs kids) lb (double_linebreak opts.table_cell) in", "let end = lb in"),
        ("specs/Md/Serializer.antt", "(add_linebreaks lb (double_linebreak opts.table_cell) t)", "(add_linebreaks lb lb t)")]),
    ("no backslash before a `!` at the end", [
        ("specs/Md/TextUtils.antt", 'take (length t - 1) t ++ ascii "\\\\!"', 'take (length t - 1) t ++ ascii "!"')]),
    # no number is at least 1 and at most 0
    ("no digits of a marker before a dot of the next text", [
        ("specs/Md/TextUtils.antt", "(leb 1 n && leb n 9) && at_indent (before_marker stem)", "(leb 1 n && leb n 0) && at_indent (before_marker stem)")]),
    ("indent of an item's blocks without its marker", [
        ("specs/Md/Elements/List.antt", "indent = replicate (ctx.list_indent + length (prefix ctx)) 32;", "indent = replicate ctx.list_indent 32;")]),
    ("marker of an item not seen before digits", [
        ("specs/Md/TextUtils.antt", 'cond (ends_with (ascii " ") stem && marker) before stem', 'cond (ends_with (ascii "\\n") stem && marker) before stem')]),
    ("lines of a code block in an item without indent", [
        ("specs/Md/Elements/List.antt", "(cond (null line) [] item.indent ++", "(cond (null line) item.indent [] ++")]),
    ("pictures without their writer", [
        ("specs/Md/Serializer.antt", "tag.a ∷ tag.img ∷ tag.pre", "tag.a ∷ tag.pre")]),
    ("reading: a shorter fence closes a fenced text", [
        ("specs/Reading/Starts.antt", "closing_fence c n r = leb n (run c r) && blank_line (drop_run c r)", "closing_fence c n r = leb 3 (run c r) && blank_line (drop_run c r)")]),
    ("reading: an ordered list of any number interrupts a paragraph", [
        ("specs/Reading/Starts.antt", "starts_at_one (some n) = eqb n 1", "starts_at_one (some n) = true")]),
    ("content column of the reading one off", [
        ("specs/Reading/Step.antt", "content_column m i = cond (leb i (m + 4)) i (suc m)", "content_column m i = cond (leb i (m + 4)) (suc i) (suc m)")]),
    ("an escaped asterisk taken for the mark of emphasis", [
        ("specs/Md/Elements/Emphasis.antt", "eqb (backslashes prefix % 2) 0", "eqb (backslashes prefix % 1) 0")]),
]


def edit(path, old, new):
    with open(path, encoding="utf-8") as h:
        source = h.read()
    if source.count(old) != 1:
        sys.exit("%s: found %d times: %s" % (os.path.basename(path), source.count(old), old))
    with open(path, "w", encoding="utf-8") as h:
        h.write(source.replace(old, new))


def copy(root):
    """the two crates; returns the folder of `spec`"""
    for name in ("spec", "recovery"):
        shutil.copytree(os.path.join(CRATES, name), os.path.join(root, "crates", name), ignore=shutil.ignore_patterns("must-fail", "out"))
    with open(os.path.join(root, "crates.txt"), "w") as h:
        h.write("spec:\nrecovery: spec\n")
    spec = os.path.join(root, "crates", "spec")
    edit(os.path.join(spec, "specs", "Lib.antt"), "pub mod Cases\n", "")
    os.remove(os.path.join(spec, "specs", "Cases.antt"))
    return spec


def check(folder):
    """the status of a check of the crate, and what it prints"""
    run = subprocess.run(["rt", "check"], cwd=folder, stdout=subprocess.PIPE, stderr=subprocess.STDOUT)
    return run.returncode, run.stdout.decode("utf-8", "replace")


def answer(edits):
    """what comes of the edits: whether a law of `recovery` refuses them, and what to print"""
    with tempfile.TemporaryDirectory() as root:
        spec = copy(root)
        for file, old, new in edits:
            edit(os.path.join(spec, *file.split("/")), old, new)
        status, out = check(spec)
        if status != 0:
            return False, "NOT TAKEN BY spec:\n" + out[-2000:]
        status, out = check(os.path.join(root, "crates", "recovery"))
    if status == 0:
        return False, "ACCEPTED"
    found = re.search(r"^\./(?:specs|proofs)/(\S+)\.antt:\d+:\d+: error: `([^`]+)`", out, re.M)
    if found is None:
        return False, "NOT REFUSED BY A LAW OF recovery:\n" + out[-2000:]
    return True, "refused by %s, `%s`" % (found.group(1), found.group(2))


def main():
    ap = command_line.parser(__doc__)
    ap.add_argument("word", nargs="*", help="only the changes whose names hold every word")
    words = ap.parse_args().word
    chosen = [c for c in CHANGES if all(word in c[0] for word in words)]
    refused = 0
    for name, edits in chosen:
        good, said = answer(edits)
        refused += good
        print("%s: %s" % (name, said), flush=True)
    print("%d changes, %d refused" % (len(chosen), refused))
    sys.exit(0 if chosen and refused == len(chosen) else 1)


if __name__ == "__main__":
    main()

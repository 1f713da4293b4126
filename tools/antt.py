"""Evaluates definitions of crate `spec` in antt, in a throwaway crate outside the repository.

    python3 tools/antt.py               # writes specs/Everything.antt anew, which names what computes

For other tools:

    bench = Bench(preamble)             # preamble: antt text with the `use` lines and the test function of the cases
    bench.failures(cases)               # cases: antt terms of type Bool; the indices of those that are not true
    literal(b), entries(es)             # bytes and lists of blocks as antt terms

A list has tuples or lists for blocks: ("rule",), ("heading", level, words), ("paragraph" or "words", words), ("fixed", bytes),
("item", depth, number or None, words), ("table", headings or None, rows), ("foreign",).
"""
import os
import re
import shutil
import subprocess
import tempfile

import command_line

HERE = os.path.dirname(os.path.abspath(__file__))
SPEC = os.path.join(HERE, "..", "crates", "spec")

HEADER = """use Rattle.std.specs.Prelude.{ℕ, zero, suc, ◌+◌, ◌*◌, ◌-◌, ◌≡◌, refl, Bool, true, false, cond, not, ◌&&◌, ◌||◌}
use Rattle.std.specs.Prelude.{List, [], ◌∷◌, ◌++◌, length, take, drop, replicate, eqb, leb}
use Rattle.std.proofs.Math.Option.{Option, none, some}
"""


def literal(b):
    """bytes as an antt term: a character stands for the byte that is its code"""
    out = []
    for c in b:
        if c == 0x22 or c == 0x5C:
            out.append("\\" + chr(c))
        elif 32 <= c < 127:
            out.append(chr(c))
        else:
            out.append("\\u{%x}" % c)
    return '(ascii "%s")' % "".join(out)


def seq(terms):
    return "(%s)" % " ∷ ".join(list(terms) + ["[]"])


def words(ws):
    return seq("word %s" % literal(w) for w in ws)


def cells(cs):
    return seq(words(c) for c in cs)


def entry(e):
    """a block as an antt term; `word` and the constructors of `Entry` must be in use"""
    if e[0] == "heading":
        return "heading %d %s" % (e[1], words(e[2]))
    if e[0] in ("paragraph", "words"):
        return "paragraph " + words(e[1])
    if e[0] == "fixed":
        return "fixed " + literal(e[1])
    if e[0] == "item":
        return "item %d %s %s" % (e[1], "none" if e[2] is None else "(some %d)" % e[2], words(e[3]))
    if e[0] == "table":
        return "table %s %s" % ("none" if e[1] is None else "(some %s)" % cells(e[1]), seq(cells(r) for r in e[2]))
    return e[0]


def entries(es):
    return seq(entry(e) for e in es)


def modules(spec=SPEC):
    """the modules of `spec` in the order in which Lib.antt and its like name them"""
    def below(path, prefix):
        with open(path, encoding="utf-8") as h:
            for name in re.findall(r"^pub mod (\S+)", h.read(), re.M):
                file = os.path.join(root, *(prefix + [name])) + ".antt"
                yield from below(file, prefix + [name])
                yield prefix + [name], file
    root = os.path.join(spec, "specs")
    return below(os.path.join(root, "Lib.antt"), [])


def everything(spec=SPEC):
    """the text of Everything.antt: every definition that can be unfolded, but those of the laws and cases behind it"""
    uses, names, taken = [], [], set()
    for path, file in modules(spec):
        with open(file, encoding="utf-8") as h:
            source = h.read()
        found = re.findall(r"^unfoldable pub (\S+) :", source, re.M)
        for block in re.findall(r"^unfoldable mutual\n((?:(?:  .*)?\n)*)", source, re.M):
            found += re.findall(r"^  pub (\S+) :", block, re.M)
        if path[0] in ("Everything", "Cases") or not found:
            continue
        alias = path[-1] if path[-1] not in taken | {"List"} else "".join(path)
        taken.add(alias)
        whole = "Rattle.spec.specs." + ".".join(path)
        uses.append("use %s" % whole if alias == path[-1] else "use %s as %s" % (whole, alias))
        names += ["%s.%s" % (alias, n) for n in found]
    return ("-- Every definition of the crate that computes, named once: under `unfolding everything` a closed term computes to its value.\n"
            "%s\n\nunfoldable pub everything : Unit {0}\nunfolding %s\neverything = tt\n"
            % ("\n".join(uses), " ".join(names)))


class Bench:
    def __init__(self, preamble, spec=SPEC):
        self.preamble = preamble
        self.dir = tempfile.mkdtemp(prefix="trial-")
        shutil.copytree(spec, os.path.join(self.dir, "crates", "spec"), ignore=shutil.ignore_patterns("out", "must-fail"))
        trial = os.path.join(self.dir, "crates", "trial")
        os.makedirs(os.path.join(trial, "src"))
        os.makedirs(os.path.join(trial, "specs"))
        with open(os.path.join(self.dir, "crates.txt"), "w") as h:
            h.write("spec:\ntrial: spec\n")
        with open(os.path.join(trial, "src", "lib.rt"), "w") as h:
            h.write("#![tactic(auto)]\n\npub fn nothing() {}\n")
        with open(os.path.join(trial, "specs", "Lib.antt"), "w") as h:
            h.write("pub mod Trial\n")
        self.trial, self.file = trial, os.path.join(trial, "specs", "Trial.antt")
        self.unfolding = " ".join(["Rattle.spec.specs.Everything.everything"] + re.findall(r"^(\S+) :", preamble, re.M))

    def close(self):
        shutil.rmtree(self.dir, ignore_errors=True)

    def __enter__(self):
        return self

    def __exit__(self, *exc):
        self.close()

    def run(self, text):
        with open(self.file, "w", encoding="utf-8") as h:
            h.write(HEADER + self.preamble + text)
        p = subprocess.run(["rt", "check"], cwd=self.trial, capture_output=True, text=True)
        return p.returncode, p.stdout + p.stderr

    def failures(self, cases):
        """the indices of the cases that are not true, in one check"""
        code, out = self.run("".join(
            "\ncase%d : (%s) ≡ true\nunfolding %s\ncase%d = refl\n" % (k, c, self.unfolding, k) for k, c in enumerate(cases)))
        bad = sorted({int(x) for x in re.findall(r"error: `case(\d+)`", out)})
        if bool(code) != bool(bad):
            raise RuntimeError(out)
        return bad

    def failing(self, claims, batch=500):
        """claims: lists of a term and its number each; the indices of those that do not hold, `batch` of them to a check"""
        out = []
        for k in range(0, len(claims), batch):
            body = []
            for j, claim in enumerate(claims[k:k + batch]):
                body.append("\nc%d : List ℕ\nc%d =\n    %s ∷ []\n\ns%d : c%d ≡ (%s ∷ [])\nunfolding c%d %s\ns%d = refl\n" % (
                    j, j, "\n    ∷ ".join(t for t, _ in claim), j, j, " ∷ ".join(str(n) for _, n in claim), j, self.unfolding, j))
            code, text = self.run("".join(body))
            said = re.split(r"error: (?=`s\d+`:)", text)
            bad = [int(re.match(r"`s(\d+)`", x).group(1)) for x in said[1:]]
            if (code == 0) != (not bad) or "error: " in said[0] or any("expected" not in x for x in said[1:]):
                raise RuntimeError(text[-3000:])
            out += [k + j for j in bad]
        return out


if __name__ == "__main__":
    command_line.parser(__doc__).parse_args()
    with open(os.path.join(SPEC, "specs", "Everything.antt"), "w", encoding="utf-8") as out:
        out.write(everything())

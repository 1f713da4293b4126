"""Compares the definitions with the Rust over random sheets.

    python3 tools/compare.py --oracle ../shared/oracle --model ../shared/model --calls 20000

Text: the Rust's, or the model's where the Rust panics at the cut that docs/DIFFERENCES.md names. Peak: the model's. Damaged sheets: the
number of the question that says no. The definitions are evaluated in antt, in a throwaway crate. Prints the counts, and which lines of the
model the same calls did not reach; a difference prints the call.
"""
import multiprocessing
import os
import sys

import antt
import command_line
import sheets

PREAMBLE = """use Rattle.spec.specs.Bytes.{Bytes, ascii, same}
use Rattle.spec.specs.Questions.{SkipList, standard, own, refusal}
use Rattle.spec.specs.Out.{Out}
use Rattle.spec.specs.Call.{written}

gives : Out → Bytes → ℕ → Bool
gives o text peak = same o.text text && eqb o.peak peak

refuses : Bytes → SkipList → ℕ → ℕ → Bool
refuses sheet skips start number = eqb (refusal sheet skips start 4194304) number

writes : Bytes → SkipList → ℕ → Bool → Bytes → ℕ → Bool
writes sheet skips start with_node text peak =
    refuses sheet skips start 0 && gives (written sheet skips start with_node) text peak
"""


def skip_term(skips):
    return "standard" if skips is None else "(own %s)" % antt.literal(skips)


def term(call):
    sheet, start, include, skips, answer = call
    if answer[0] == "no":
        return "refuses %s %s %d %d" % (antt.literal(sheet), skip_term(skips), start, answer[1])
    return "writes %s %s %d %s %s %d" % (antt.literal(sheet), skip_term(skips), start, "true" if include else "false",
                                         antt.literal(answer[1]), answer[2])


class Coverage:
    """the lines of the model's files that are reached"""

    def __init__(self, folder):
        self.folder = folder
        self.seen = set()

    def trace(self, frame, event, arg):
        if not frame.f_code.co_filename.startswith(self.folder):
            return None
        if event == "line":
            self.seen.add((frame.f_code.co_filename, frame.f_lineno))
        return self.trace

    def missed(self, *modules):
        out = []
        for m in modules:
            with open(m.__file__, encoding="utf-8") as h:
                source = h.read()
            codes = [compile(source, m.__file__, "exec")]
            while codes:
                c = codes.pop()
                codes += [k for k in c.co_consts if hasattr(k, "co_code")]
                if c.co_name in ("<module>", "Node", "Tree", "Meter", "Buf", "Opts", "ListCtx", "Writer", "C"):
                    continue
                out += ["%s:%d %s" % (os.path.basename(m.__file__), n, source.split("\n")[n - 1].strip())
                        for n in {n for _, _, n in c.co_lines() if n and n != c.co_firstlineno}
                        if (m.__file__, n) not in self.seen]
        return sorted(set(out))


def generate(seed, n, reference):
    """n calls: on whole sheets every start node with both flags; damaged sheets among them"""
    g = sheets.Gen(seed)
    calls = []
    while len(calls) < n:
        if g.r.random() < .4:
            s, start, skips = g.damaged()
            wanted = [(s, start, False, skips)]
        else:
            s = g.sheet()
            tree = reference.sheet.decode(s)
            if isinstance(tree, int):
                continue
            skips = g.skips()
            wanted = [(s, k, f, skips) for k in range(len(tree.nodes)) for f in (False, True)]
        for c in wanted:
            calls.append(c + (reference.answer(*c),))
    return calls[:n]


# the limit of question 1: such lists are too long to be evaluated, so the answer is proved by the law on lengths
LONG = """
long : (n : ℕ) (b : Bool) → leb n 1048576 ≡ b → question1 (replicate n 0) ≡ b
unfolding question1
long n b e = rw length-replicate e

case%d : question1 (replicate %d 0) ≡ %s
case%d = long %d _ refl
"""


def compare_long(reference):
    """whether question 1 is answered as by the Rust for sheets of 1,048,576 and 1,048,577 bytes"""
    preamble = "use Rattle.std.proofs.lemmas.List.{length-replicate}\nuse Rattle.spec.specs.Questions.{question1}\n"
    with antt.Bench(preamble) as bench:
        return all(bench.run(LONG % (n, n, "false" if reference.answer(bytes(n), 0, False, None)[1] == 1 else "true", n, n))[0] == 0
                   for n in (1048576, 1048577))


def evaluate(calls):
    with antt.Bench(PREAMBLE) as bench:
        bad = []
        for k in range(0, len(calls), 2000):
            part = calls[k:k + 2000]
            bad += [part[i] for i in bench.failures([term(c) for c in part])]
        return bad


def main():
    ap = command_line.parser(__doc__)
    ap.add_argument("--calls", type=int, default=20000)
    ap.add_argument("--seed", type=int, default=1)
    ap.add_argument("--jobs", type=int, default=2, help="checks that run at a time")
    args, reference = command_line.with_reference(ap)
    coverage = Coverage(args.model)
    sys.settrace(coverage.trace)
    calls = generate(args.seed, args.calls, reference)
    sys.settrace(None)
    numbers = {}
    for c in calls:
        key = c[4][1] if c[4][0] == "no" else "text"
        numbers[key] = numbers.get(key, 0) + 1
    print("seed %d: %d calls; by answer: %s; the Rust panics at the cut: %d" % (args.seed, len(calls), numbers, reference.panics))
    print("lines of the model not reached:")
    for line in coverage.missed(reference.sheet, reference.writer):
        print("  " + line)
    size = -(-len(calls) // args.jobs)
    with multiprocessing.Pool(args.jobs) as pool:
        bad = sum(pool.map(evaluate, [calls[k:k + size] for k in range(0, len(calls), size)], 1), [])
    for c in sorted(bad, key=lambda c: len(c[0]))[:20]:
        print("DIFFERENT: sheet %s start %d include %s skips %r: %r" % (c[0].hex(), c[1], c[2], c[3], c[4]))
    long = compare_long(reference)
    print("question 1 at its limit: %s" % ("as the Rust's" if long else "DIFFERENT"))
    print("%d calls, %d differences" % (len(calls), len(bad)))
    sys.exit(1 if bad or not long else 0)


if __name__ == "__main__":
    main()

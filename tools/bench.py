"""Times the linked library beside the Rust of dom_query, in one process and on the same trees, and counts instructions.

    python3 tools/bench.py --oracle ../shared/oracle [--runs 5] [--counts]

The folder holds the Rust's sources with a build.sh that stages them. They are built, with hosts/bench and hosts/rust, below
target/bench; the staged files are not changed, but `serialize_md` is made public. Prints the tables of docs/PERFORMANCE.md: times, and
with --counts the instructions that valgrind's callgrind counts.
"""
import os
import re
import shutil
import statistics
import subprocess
import tempfile

import command_line

HERE = os.path.dirname(os.path.abspath(__file__))
ROOT = os.path.dirname(HERE)
BENCH = os.path.join(ROOT, "target", "bench")
SAMPLE = os.path.join(ROOT, "samples", "sample.sheet")

MANIFEST = """[package]
name = "bench"
version = "0.1.0"
edition = "2024"

[workspace]

[[bin]]
name = "bench"
path = "{root}/hosts/bench/main.rs"

[dependencies]
buzhnael = {{ path = "{root}/hosts/rust" }}
dom_query = {{ path = "dom_query" }}
html5ever = "0.26"
tendril = "0.4"

[patch.crates-io]
tendril = {{ path = "{build}/tendril" }}

[profile.release]
opt-level = 3
codegen-units = 1
debug = 1
"""


def staged(oracle):
    """stages and builds the Rust; gives the folder"""
    subprocess.run(["sh", os.path.join(oracle, "build.sh")], check=True, stdout=subprocess.DEVNULL)
    return os.environ.get("ORACLE_BUILD", os.path.expanduser("~/.cache/oracle-build"))


def read(path):
    with open(path, encoding="utf-8") as h:
        return h.read()


def write(path, text):
    """writes the file where it is another, so that nothing is built again for it"""
    os.makedirs(os.path.dirname(path), exist_ok=True)
    if not os.path.exists(path) or read(path) != text:
        with open(path, "w", encoding="utf-8") as h:
            h.write(text)


def built(oracle):
    """the program, with the Rust as a library in which `serialize_md` is public"""
    build = staged(oracle)
    stage, copy = os.path.join(build, "stage"), os.path.join(BENCH, "dom_query")
    source = os.path.join(stage, "src")
    shutil.copytree(source, os.path.join(copy, "src"), dirs_exist_ok=True, ignore=shutil.ignore_patterns("lib.rs"))
    write(os.path.join(copy, "src", "lib.rs"), read(os.path.join(source, "lib.rs")) + "pub use serializing::md::serialize_md;\n")
    manifest = read(os.path.join(stage, "Cargo.toml"))
    write(os.path.join(copy, "Cargo.toml"), re.sub(r"\[(workspace|patch\.|profile\.)[^\[]*", "", manifest))
    write(os.path.join(BENCH, "Cargo.toml"), MANIFEST.format(root=ROOT, build=build))
    write(os.path.join(BENCH, ".cargo", "config.toml"), read(os.path.join(stage, ".cargo", "config.toml")))
    subprocess.run(["cargo", "build", "--release", "--offline"], cwd=BENCH, check=True)
    return os.path.join(BENCH, "target", "release", "bench")


def instructions(program, corpus, side, count):
    """what callgrind counts for a run"""
    with tempfile.TemporaryDirectory() as room:
        words = ["valgrind", "--tool=callgrind", "--callgrind-out-file=" + os.path.join(room, "out")]
        words += [program, "run", SAMPLE, str(corpus), str(side), str(count)]
        said = subprocess.run(words, check=True, capture_output=True, text=True).stderr
    return int(re.search(r"Collected : (\d+)", said).group(1))


def of_one(program, corpus, side):
    """the instructions of one call: five calls less three, halved"""
    return (instructions(program, corpus, side, 5) - instructions(program, corpus, side, 3)) // 2


def table(heads, rows):
    print("| %s |" % " | ".join(heads))
    print("|%s" % (" --- |" + " ---: |" * (len(heads) - 1)))
    for row in rows:
        print("| %s |" % " | ".join(row))
    print()


def micros(nanos):
    return "%.2f" % (nanos / 1000)


def machine():
    """a line that names the processor and both compilers"""
    model = re.search(r"model name\s*: (.*)", read("/proc/cpuinfo"))
    rustc = subprocess.run(["rustc", "--version"], check=True, capture_output=True, text=True).stdout
    kit = subprocess.run(["rt", "version"], check=True, capture_output=True, text=True).stdout
    return "%s, %d cores; %s; %s" % (model.group(1) if model else "unknown processor", os.cpu_count(), rustc.strip(), kit.strip())


def timed(program):
    """for each corpus its name, bytes, nodes, bytes of text, and nanoseconds of the Rust, of the call and of the call that writes
    nothing, of one run"""
    said = subprocess.run([program, "times", SAMPLE], check=True, capture_output=True, text=True).stdout
    for line in said.splitlines():
        name, sheet, nodes, text, *times = line.split("\t")
        yield (name, sheet, nodes, text, *map(float, times))


def times_table(program, runs):
    """the median of the runs; of the ratio also the least and the greatest. Gives the names of the corpora"""
    rows = []
    for one in zip(*(timed(program) for _ in range(runs))):
        name, sheet, nodes, text = one[0][:4]
        ratios = [r[4] / r[5] for r in one]
        rust, call, writing = (statistics.median(x) for x in zip(*((r[4], r[5], r[5] - r[6]) for r in one)))
        row = [name, sheet, nodes, text, micros(rust), micros(call), "%.2f" % statistics.median(ratios)]
        row += ["%.2f to %.2f" % (min(ratios), max(ratios)), micros(writing), "%.2f" % (rust / writing)]
        rows.append(row + ["%.2f" % (call / int(sheet))])
    heads = ["corpus", "bytes", "nodes", "text", "Rust, µs", "call, µs", "ratio", "over the runs", "writing, µs", "ratio"]
    table(heads + ["call, ns per byte"], rows)
    return [row[0] for row in rows]


def counts_table(program, names):
    rows = []
    for n, name in enumerate(names):
        rust, call, leaf = (of_one(program, n, side) for side in range(3))
        row = [name, str(rust), str(call), "%.2f" % (rust / call), str(call - leaf), "%.2f" % (rust / (call - leaf))]
        rows.append(row)
    table(["corpus", "Rust", "call", "ratio", "writing", "ratio"], rows)


def main():
    ap = command_line.parser(__doc__)
    ap.add_argument("--oracle", required=True, help="folder of the Rust's sources, with build.sh")
    ap.add_argument("--runs", type=int, default=5, help="how many runs the times are the median of")
    ap.add_argument("--counts", action="store_true", help="count instructions, too (valgrind)")
    args = ap.parse_args()
    program = built(args.oracle)
    print(machine() + "\n")
    names = times_table(program, args.runs)
    if args.counts:
        counts_table(program, names)


if __name__ == "__main__":
    main()

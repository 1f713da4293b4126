"""The command lines of the tools: `--help` prints the text at the top of a tool's file, and `with_reference` opens the Rust and the model
that --oracle and --model name.
"""
import argparse
import os
import sys

ORACLE = "folder of the Rust's server and its client, oracle.py"
MODEL = "folder of the second definition in Python"
CMARK = "the module that loads cmark-gfm, cmark_list.py"


def parser(doc):
    return argparse.ArgumentParser(description=doc, formatter_class=argparse.RawDescriptionHelpFormatter)


def with_reference(ap):
    """the arguments, and the Rust and the model that two of them name"""
    ap.add_argument("--oracle", required=True, help=ORACLE)
    ap.add_argument("--model", required=True, help=MODEL)
    args = ap.parse_args()
    args.model, args.oracle = os.path.abspath(args.model), os.path.abspath(args.oracle)
    return args, Reference(args.oracle, args.model)


class Reference:
    """the Rust and the model"""

    def __init__(self, oracle, model):
        sys.path[:0] = [oracle, model]
        import model_sheet
        import model_writer
        import oracle as client
        self.sheet, self.writer, self.oracle = model_sheet, model_writer, client.Oracle()
        self.panics = 0

    def answer(self, sheet, start, include, skips):
        rust = self.oracle.write(sheet, start, include, skips)
        tree = self.sheet.decode(sheet, start, skips)
        if rust == "refused":
            assert tree == self.oracle.last_refusal, (sheet, tree, self.oracle.last_refusal)
            return ("no", tree)
        text, peak = self.writer.write_md(tree, include)
        if rust == "panic":
            assert "is_char_boundary" in self.oracle.last_panic, self.oracle.last_panic
            self.panics += 1
        else:
            assert rust == text, (sheet, start, include, skips, rust, text)
        return ("text", text, peak)

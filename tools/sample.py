"""The sample sheet: every kind of block, in a fitting sheet for a radar display. Written to standard output:

    python3 tools/sample.py > samples/sample.sheet
"""
import sys

import command_line
from sheets import el


def rows(kind, *cells):
    return el("tr", *[el(kind, c) for c in cells])


def sheet():
    return b"".join([
        el("h1", "Fitting sheet 010"),
        el("p", "For the display ", el("code", "RD-4"), " on the boat ", el("b", "Marlen"), ", to be set up ", el("em", "once"), "."),
        el("hr"),
        el("h2", "Sectors"),
        el("p", "Blank the two sectors behind the mast:", el("br"), "1. port, 2. starboard."),
        el("ul",
           el("li", "Port: 168 to 174"),
           el("li", "Starboard:", el("ol", el("li", "turn the knob to #3"), el("li", "set 186 to 192"), start="9")),
           el("li", el("p", "Both in one go:"), el("pre", "SECTOR 168 174\nSECTOR 186 192\n", data_lang="radar"), el("p", "and then store."))),
        el("h3", "Rings"),
        el("table",
           el("thead", rows("th", "Range", "Rings", "Key")),
           el("tbody", rows("td", "3 nm", "6", "a|b"), rows("td", "12 nm", "4", "*"))),
        el("p", "See ", el("a", "the manual", href="https://example.org/rd-4 (en)", title='Chapter "Rings"'), " and the picture:"),
        el("p", el("img", src="rings.png", alt="six rings")),
        el("div", el("h4", "Signed"), el("ol", el("li", "fitter"), el("li", "skipper")), el("section", el("p", "- none -"))),
    ])


if __name__ == "__main__":
    command_line.parser(__doc__).parse_args()
    sys.stdout.buffer.write(sheet())

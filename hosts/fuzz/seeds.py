#!/usr/bin/env python3
"""Writes the first inputs of the fuzzer: seeds.py FOLDER. Each is a head, a run and a sheet (input.h)."""
import pathlib
import sys

ROOT = pathlib.Path(__file__).resolve().parents[2]
ROOMY, EXACT, SMALL = 0xE1, 0x41, 0x21


def field(tag, body=""):
    body = body.encode()
    return bytes([tag]) + len(body).to_bytes(2, "big") + body


def text(body):
    return field(4, body)


def el(name, *inside, **attributes):
    pairs = b"".join(field(2, key.rstrip("_").replace("_", "-")) + field(3, value) for key, value in attributes.items())
    return field(1, name) + pairs + b"".join(text(i) if isinstance(i, str) else i for i in inside) + field(6)


def nested(times, *names):
    names = [names[k % len(names)] for k in range(times)]
    return b"".join(field(1, name) for name in names) + text("x") + field(6) * times


def given(sheet, mode=ROOMY, start=0, include=0, run=None, fill=0):
    own, run = (0, b"") if run is None else (1, run)
    head = start.to_bytes(2, "big") + bytes([mode, include, own, 16, 1, 0, fill]) + len(run).to_bytes(2, "big")
    return head + run + sheet


SHEETS = [
    b"",
    text("x"),
    field(5, "c"),
    el("p", "1. Fit"),
    el("h2", "Sector #") + el("hr"),
    el("ol", el("li", "A"), el("li", "B", value="12"), start="9"),
    el("ul", el("li", "A", el("ol", el("li", "B"), start="3")), el("li", el("p", "a"), el("p", "b"), el("pre", "c\nd"))),
    el("table", el("tr", el("th", "h"), el("th", "k")), el("tr", el("td", "010"), el("td", "a|b", el("code", "c|d")))),
    el("table", el("thead", el("tr", el("td", "1"))), el("tbody", el("tr", el("td", el("table", el("tr", el("td", "2"))))))),
    el("p", "a", el("b", "bold", el("i", "both")), el("br"), el("code", "`"), el("span", " s "), el("em", " x ")),
    el("strong", "y") + el("b", "z") + el("i", "w"),
    el("a", "x", href="a(b", title='t "q"') + el("a", el("img", src="s", alt="a"), href="u"),
    el("img", srcset="a.png 1x, b.png 2x", alt="[x]", title="t"),
    el("pre", el("code", "``` x\n  y\n", class_="language-rust")) + el("pre", "z", data_lang="c"),
    el("div", el("section", el("article", "w")), el("script", "s"), el("style", "t")),
    el("dl", el("p", "é\u00a0\u3000😀")),
    nested(100, "div"), nested(100, "b", "span"), nested(100, "ul", "li"), nested(99, "table", "tr", "td"), nested(101, "i"),
    el("blockquote", "q"),
    field(1, "p"), field(6), b"\x04\0\x01\xff", b"\x09\0\0",
]


def main():
    folder = pathlib.Path(sys.argv[1])
    folder.mkdir(parents=True, exist_ok=True)
    sample = (ROOT / "samples/sample.sheet").read_bytes()
    inputs = [given(sheet) for sheet in [sample, *SHEETS]]
    inputs += [given(sheet, include=1, start=1, mode=0xE0, fill=8) for sheet in SHEETS]
    inputs += [given(sheet, mode=mode, fill=7) for sheet in SHEETS for mode in (EXACT, SMALL)]
    inputs += [given(sample, run=run) for run in (b"", field(7, "table") + field(7, "ul"), field(7, "b") * 17)]
    for number, made in enumerate(inputs):
        (folder / f"seed{number:03}").write_bytes(made)
    print(f"{len(inputs)} inputs in {folder}")


main()

#!/usr/bin/env python3
"""Compares the examples with what else shows them: of each NAME.script the output stands in NAME.out, and of each
NAME.transcript, which is false, the verdict in NAME.verdict.

usage: compare.py [PROGRAM]

The tables of crates/ltx_rows/src, which the gate tests, must have just these lines and replies and these transcripts, NAME.svg must
be the picture of the output, as draw_all.sh draws it, and where docs/tour.md runs the script, it must show all of the output.
With a PROGRAM, which the gate leaves at crates/ltx_run/out/ltx_run, each script is also run, its output compared and checked, and
each transcript is checked. Status 1: they differ.
"""
import pathlib
import re
import subprocess
import sys
import textwrap

HERE = pathlib.Path(__file__).resolve().parent
TABLES = HERE.parent / "crates/ltx_rows/src/examples.rt"
TOUR = HERE.parent / "docs/tour.md"
TRANSCRIPTS = HERE.parent / "crates/ltx_rows/src/transcripts.rt"


def entries(text):
    return [tuple(line.split(" => ")) for line in text.splitlines() if " => " in line]


def tables():
    found = {}
    for name, body in re.findall(r"const (\w+): .*?= &\[(.*?)\n\];", TABLES.read_text(), re.S):
        found[name.lower()] = re.findall(r'\(\s*"([^"]*)",\s*"([^"]*)",?\s*\)', body)
    return found


def is_drawn(out, picture):
    """Whether the picture is what timeline.py draws of the output."""
    drawn = subprocess.run([sys.executable, HERE / "timeline.py"], input=out, capture_output=True, text=True)
    return picture.exists() and drawn.returncode == 0 and drawn.stdout == picture.read_text()


def judged(program, text):
    run = subprocess.run([program, "check"], input=text, capture_output=True, text=True)
    return run.stdout, run.returncode


def main():
    known, tour, differ = tables(), TOUR.read_text(), []
    told = {name: text for name, text in re.findall(r'const (\w+): .*?\n? *b"(.*?)";', TRANSCRIPTS.read_text()) if name != "EXPLAINED"}
    for path in sorted(HERE.glob("*.transcript")):
        name, text, verdict = path.stem, path.read_text(), path.with_suffix(".verdict").read_text()
        if told.pop(name.upper(), "").replace("\\n", "\n") != text:
            differ.append(f"{name}: ltx_rows has another transcript")
        if len(sys.argv) > 1 and judged(sys.argv[1], text) != (verdict, 11):
            differ.append(f"{name}: the program gives another verdict")
    differ += [f"{name}: ltx_rows has a transcript without a file" for name in told]
    for script in sorted(HERE.glob("*.script")):
        name, lines = script.stem, script.read_text()
        out = script.with_suffix(".out").read_text()
        if [line for line, _ in entries(out)] != lines.splitlines():
            differ.append(f"{name}: the output is not of these lines")
        if known.pop(name, None) != entries(out):
            differ.append(f"{name}: ltx_rows has another table")
        if not is_drawn(out, script.with_suffix(".svg")):
            differ.append(f"{name}: the picture is not of this output; draw_all.sh draws it")
        if script.name in tour and textwrap.indent(out, "    ") not in tour:
            differ.append(f"{name}: the tour shows another output")
        if len(sys.argv) > 1:
            run = subprocess.run([sys.argv[1], "run"], input=lines, capture_output=True, text=True)
            if run.stdout != out or run.returncode != 0:
                differ.append(f"{name}: the program prints another text, or ends with status {run.returncode}")
            if judged(sys.argv[1], out) != ("yes\n", 0):
                differ.append(f"{name}: the check of its output does not say yes")
    differ += [f"{name}: ltx_rows has a table without a script" for name in known]
    print("\n".join(differ) or "the examples are as their texts say")
    return 1 if differ else 0


sys.exit(main())

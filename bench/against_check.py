#!/usr/bin/env python3
"""Spoils transcripts at random, and compares the program's verdicts with those of plain_check.py.

usage: against_check.py PROGRAM [TRANSCRIPTS [LINES [SEED]]]

PROGRAM is what the gate leaves at crates/ltx_run/out/ltx_run. 2,000 transcripts of scripts of 60 lines, if no other numbers are given:
each as it was printed, or with up to three words changed, lines dropped, doubled or swapped, or cut anywhere. The first one on which
the two differ is left in the folder for temporary files, and named. Status 1: some differ.
"""
import os
import random
import subprocess
import sys
import tempfile

import against_plain
import plain
import plain_check


def other_word(draw, words):
    """A word of the text in place of another, or one of its digits changed."""
    at = draw.randrange(len(words))
    if words[at].isdigit() and draw.random() < 0.6:
        words[at] = str(max(0, int(words[at]) + draw.choice([-1, 1, 1, 2])))
    else:
        words[at] = draw.choice(words + ["none", "done", "before", "1", "2", "committed", "=>", "later", ""])
    return words


def same_kind(draw, lines):
    """The reply of another entry with the same verb."""
    entries = [i for i, line in enumerate(lines) if " => " in line]
    if not entries:
        return
    at = draw.choice(entries)
    verb = lines[at].split(" => ")[0].split(" ")[1:2]
    others = [i for i in entries if lines[i].split(" => ")[0].split(" ")[1:2] == verb]
    lines[at] = lines[at].split(" => ")[0] + " => " + lines[draw.choice(others)].split(" => ")[1]


def swapped_order(draw, lines):
    """Two members of the order swapped."""
    words = lines[-2].split(" ")
    if len(words) > 2:
        i, j = draw.sample(range(1, len(words)), 2)
        words[i], words[j] = words[j], words[i]
        lines[-2] = " ".join(words)


def without_target(draw, lines):
    """A commit before a target without it."""
    found = [i for i, line in enumerate(lines) if " before " in line]
    if found:
        at = draw.choice(found)
        lines[at] = lines[at].split(" before ")[0]


def spoilt(draw, text):
    lines = text.split("\n")[:-1]
    for _ in range(draw.choice([0, 1, 1, 1, 1, 2, 3])):
        if len(lines) < 2:
            break
        how, at = draw.random(), draw.randrange(len(lines))
        if how < 0.25:
            lines[at] = " ".join(other_word(draw, lines[at].split(" ")))
        elif how < 0.35:
            del lines[at]
        elif how < 0.45:
            lines.insert(at, lines[at])
        elif how < 0.55:
            other = draw.randrange(len(lines))
            lines[at], lines[other] = lines[other], lines[at]
        elif how < 0.7:
            same_kind(draw, lines)
        elif how < 0.88:
            swapped_order(draw, lines)
        else:
            without_target(draw, lines)
    text = "\n".join(lines) + "\n"
    return text[:draw.randrange(len(text))] if draw.random() < 0.03 else text


def main():
    program = sys.argv[1]
    count, lines, seed = ([int(word) for word in sys.argv[2:]] + [2_000, 60, 1][len(sys.argv) - 2:])
    verdicts = {}
    for number in range(count):
        draw = random.Random(f"{seed}/{number}")
        if number % 10 == 0:
            printed, _ = plain.run(against_plain.script(draw, lines).encode())
        text = spoilt(draw, printed)
        want = plain_check.verdict(text.encode())
        run = subprocess.run([program, "check"], input=text, capture_output=True, text=True)
        if (run.stdout, run.returncode) != (want, 0 if want == "yes\n" else 11):
            path = os.path.join(tempfile.gettempdir(), f"differs-{seed}-{number}.transcript")
            with open(path, "w") as out:
                out.write(text)
            print(f"{path}: {run.stdout!r} with status {run.returncode} where plain_check.py has {want!r}")
            return 1
        kind = want.split()[-1]
        verdicts[kind] = verdicts.get(kind, 0) + 1
    print(f"{count} transcripts: all verdicts are the same")
    print(", ".join(f"{kind} {times}" for kind, times in sorted(verdicts.items())))
    return 0


if __name__ == "__main__":
    sys.exit(main())

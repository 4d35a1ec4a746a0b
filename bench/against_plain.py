#!/usr/bin/env python3
"""Runs random scripts through the program and through plain.py, and compares all that they print, with the status.

usage: against_plain.py PROGRAM [SCRIPTS [LINES [SEED]]]

PROGRAM is what the gate leaves at crates/ltx_run/out/ltx_run. 300 scripts of 200 lines, if no other numbers are given. The
first script whose texts differ is left in the folder for temporary files, and named. Status 1: some differ.
"""
import os
import random
import subprocess
import sys
import tempfile

import plain

BAD = ["1  short", "0 short", "1 fly", "epoch 2", "2 get 64 x", "2 put 0 x", "2 get 0 %41", "3 long W=1,1", "3 long W=- R=*", ""]


class Kind:
    """What a script is like: few sessions, tables and keys, so that transactions meet."""

    def __init__(self, draw):
        self.sessions, self.tables, self.keys = draw.randint(2, 8), draw.randint(1, 5), draw.randint(1, 8)
        self.epochs, self.bad = draw.choice([0.02, 0.06, 0.15]), draw.choice([0, 0, 0.02])
        self.batches, self.widest, self.patient = draw.choice([0, 0.1, 0.3]), self.tables, 0
        if draw.random() < 0.6:
            # many batches that declare little, those of the first sessions long ones: they overtake each other
            self.sessions, self.tables, self.keys = draw.randint(4, 10), draw.randint(2, 6), draw.randint(1, 4)
            self.epochs, self.batches, self.widest = draw.choice([0.05, 0.1]), draw.choice([0.4, 0.7, 0.9]), draw.randint(1, 2)
            self.patient = draw.randint(0, 3)


def sets(draw, kind, name):
    chosen = sorted(draw.sample(range(kind.tables), draw.randint(0, min(kind.widest + (name == "R="), kind.tables))))
    return name + (",".join(map(str, chosen)) or "-")


def begin(draw, kind):
    if draw.random() >= kind.batches:
        return "short"
    words = ["long", sets(draw, kind, "W=") if draw.random() < 0.95 else "W=*"]
    if draw.random() < (0.5 if kind.widest == kind.tables else 0.9):
        words.append(sets(draw, kind, "R="))
    return " ".join(words)


def operation(draw, kind):
    table, key = draw.randrange(kind.tables), f"k{draw.randrange(kind.keys)}"
    verb = draw.choice(["get", "get", "scan", "put", "put", "del"])
    if verb == "scan":
        low = draw.choice(["%", f"k{draw.randrange(kind.keys)}"])
        high = draw.choice(["%", f"k{draw.randrange(kind.keys)}"])
        return f"scan {table} {low} {high}"
    return f"{verb} {table} {key}" + (f" v{draw.randrange(100)}" if verb == "put" else "")


def allowed(draw, tx, kind):
    """An operation; of a batch mostly one inside of what it declared."""
    for _ in range(8):
        words = operation(draw, kind)
        verb, table = words.split()[0], int(words.split()[1])
        if tx is None or tx.batch is None or table in tx.batch[verb in ("get", "scan")] or draw.random() < 0.05:
            break
    return words


def asked(draw, session, tx, kind):
    """What a session with this open transaction asks; now and then something that does not belong there."""
    if (tx is None) != (draw.random() < 0.02):
        return begin(draw, kind)
    turn = draw.random() * (6 if session <= kind.patient else 1)
    if tx is None or turn < 0.16 and (tx.batch is None or tx.is_live() or turn < 0.02):
        return "commit" if turn < 0.14 else "abort"
    return allowed(draw, tx, kind)


def script(draw, lines):
    """A random script. plain.py tells what is open as it grows."""
    kind, engine, out = Kind(draw), plain.Engine(), []
    for _ in range(lines):
        turn = draw.random()
        pending = any(tx.batch and not tx.is_live() for tx in engine.open.values())
        if turn < (2 * kind.epochs if pending else kind.epochs / 2):
            line = "epoch"
        elif turn > 1 - kind.bad:
            line = draw.choice(BAD)
        elif turn > 0.99 - kind.bad:
            line = draw.choice(["flush", "prune"])
        else:
            session = draw.randint(1, kind.sessions)
            line = f"{session} {asked(draw, session, engine.open.get(session), kind)}"
        out.append(line)
        try:
            engine.answer(plain.read(line.encode()))
        except plain.Bad:
            pass
    return "\n".join(out) + "\n"


def kind_of(reply):
    """The first word of a reply, or `before` for the commit of a batch that is forwarded."""
    return "before" if " before " in reply else reply.split(" ")[0]


def main():
    program = sys.argv[1]
    count, lines, seed = ([int(word) for word in sys.argv[2:]] + [300, 200, 1][len(sys.argv) - 2:])
    replies = {}
    for number in range(count):
        text = script(random.Random(f"{seed}/{number}"), lines)
        want, status = plain.run(text.encode())
        run = subprocess.run([program, "run"], input=text, capture_output=True, text=True)
        if (run.stdout, run.returncode) != (want, status):
            path = os.path.join(tempfile.gettempdir(), f"differs-{seed}-{number}.script")
            with open(path, "w") as out:
                out.write(text)
            got = run.stdout.splitlines()
            here = next((i for i, line in enumerate(want.splitlines()) if got[i:i + 1] != [line]), len(got))
            print(f"{path}: line {here + 1}: {got[here:here + 1]} where plain.py has {want.splitlines()[here:here + 1]}, "
                  f"status {run.returncode} and {status}")
            return 1
        for line in want.splitlines():
            if " => " in line:
                reply = kind_of(line.split(" => ")[1])
                replies[reply] = replies.get(reply, 0) + 1
    print(f"{count} scripts of {lines} lines: all that is printed is the same")
    print(", ".join(f"{reply} {times}" for reply, times in sorted(replies.items())))
    return 0


if __name__ == "__main__":
    sys.exit(main())

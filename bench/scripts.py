#!/usr/bin/env python3
"""Writes a script of one workload to standard output.

usage: scripts.py WORKLOAD COUNT [SEED]

  lines    COUNT times: 1 short, 1 put 0 x a, 1 commit
  pairs    COUNT transactions of one get and one put on 1,000 keys
  pairs-big  the same on 100,000 keys, which are loaded first
  rising   loads COUNT rows in rising key order, 100 rows a transaction
  random   loads COUNT rows in random key order, 100 rows a transaction
  scans    COUNT transactions with one scan of 100 rows of 100,000, which are loaded first
  mixed    COUNT transactions of one get, one scan of 100 rows and one put on 100,000 rows, which are loaded first
  gets     COUNT gets among 100,000 rows, which are loaded first, 100 a transaction
  transfers  COUNT transactions of two gets and two puts on 1,000 rows, and after each 1,000 of them a sum: a short
           that scans all rows and puts one more
  beside   COUNT pairs of transactions of one get and one put on 1,000 keys, the two of a pair side by side in two sessions
  sum      COUNT transfers beside one batch that is live over all of them: it reads every account at its end, and writes the sum
  live-0, live-1, live-8, live-64  COUNT transactions of one get and one put on 1,000 keys, beside so many live batches that
           hold other tables
  chain    COUNT batches one after another, each of which reads and writes the row that the one before wrote
  elder    COUNT batches, one after another, each placed before the one elder that is live over all of them: they read the
           table that it will write
  looks    COUNT transactions of one get and one put on 100,000 rows, which are loaded first, beside one batch that looks
           COUNT keys up: it scans 100 rows before each 100 of them, and commits at the end
  talk     COUNT lines: 1 short, 998 lines of get and put on 1,000 keys, 1 commit, again and again
  base     the 100,000 rows alone that pairs-big, scans, mixed, gets and looks load first
"""
import random
import sys

BIG = 100_000
SMALL = 1_000


def key(number):
    return f"k{number:07d}"


def load(out, numbers):
    for start in range(0, len(numbers), 100):
        out.append("1 short")
        out.extend(f"1 put 0 {key(number)} v{number}" for number in numbers[start:start + 100])
        out.append("1 commit")


def pairs(out, count, keys, draw):
    for turn in range(count):
        out.append("1 short")
        out.append(f"1 get 0 {key(draw.randrange(keys))}")
        out.append(f"1 put 0 {key(draw.randrange(keys))} v{turn}")
        out.append("1 commit")


def scans(out, count, draw):
    for _ in range(count):
        low = draw.randrange(BIG - 100)
        out.append("1 short")
        out.append(f"1 scan 0 {key(low)} {key(low + 100)}")
        out.append("1 commit")


def mixed(out, count, draw):
    for turn in range(count):
        low = draw.randrange(BIG - 100)
        out.append("1 short")
        out.append(f"1 get 0 {key(draw.randrange(BIG))}")
        out.append(f"1 scan 0 {key(low)} {key(low + 100)}")
        out.append(f"1 put 0 {key(draw.randrange(BIG))} v{turn}")
        out.append("1 commit")


def gets(out, count, draw):
    for start in range(0, count, 100):
        out.append("1 short")
        out.extend(f"1 get 0 {key(draw.randrange(BIG))}" for _ in range(min(100, count - start)))
        out.append("1 commit")


def transfers(out, count, draw):
    load(out, list(range(SMALL)))
    for turn in range(count):
        transfer(out, turn, draw)
        if turn % 1_000 == 999:
            out.extend(["1 short", "1 scan 0 % %", f"1 put 1 sum v{turn}", "1 commit"])


def transfer(out, turn, draw):
    one, other = key(draw.randrange(SMALL)), key(draw.randrange(SMALL))
    out.append("1 short")
    out.extend(f"1 get 0 {account}" for account in (one, other))
    out.extend(f"1 put 0 {account} v{turn}" for account in (one, other))
    out.append("1 commit")


def sum_beside(out, count, draw):
    load(out, list(range(SMALL)))
    out.extend(["2 long W=1 R=0", "epoch"])
    for turn in range(count):
        transfer(out, turn, draw)
    out.extend(f"2 get 0 {key(number)}" for number in range(SMALL))
    out.extend(["2 put 1 sum done", "2 commit"])


def live(out, count, draw, batches):
    out.extend(f"{2 + number} long W={1 + number % 63} R=0" for number in range(batches))
    out.append("epoch")
    pairs(out, count, SMALL, draw)


def chain(out, count):
    for turn in range(count):
        out.extend(["1 long W=0 R=0", "epoch", "1 get 0 x", f"1 put 0 x v{turn}", "1 commit"])


def elder(out, count):
    out.extend(["1 long W=0 R=2", "epoch", "1 get 2 z"])
    for turn in range(count):
        out.extend(["2 long W=1", "epoch", "2 get 0 y", f"2 put 1 {key(turn)} v{turn}", "2 commit"])
    out.extend(["1 put 0 y done", "1 commit"])


def looks(out, count, draw):
    out.extend(["2 long W=1 R=0", "epoch"])
    for low in range(0, count, 100):
        out.append(f"2 scan 0 {key(low)} {key(low + 100)}")
        pairs(out, 100, BIG, draw)
    out.extend(["2 put 1 sum done", "2 commit"])


def beside(out, count, draw):
    for turn in range(count):
        names = [key(draw.randrange(SMALL)) for _ in range(4)]
        out.extend(["1 short", "2 short"])
        out.extend([f"1 get 0 {names[0]}", f"2 get 0 {names[1]}"])
        out.extend([f"1 put 0 {names[2]} v{turn}", f"2 put 0 {names[3]} w{turn}"])
        out.extend(["1 commit", "2 commit"])


def talk(out, count, draw):
    while len(out) < count:
        out.append("1 short")
        for turn in range(998):
            number = draw.randrange(SMALL)
            out.append(f"1 get 0 {key(number)}" if turn % 2 else f"1 put 0 {key(number)} v{turn}")
        out.append("1 commit")


def script(workload, count, seed):
    draw = random.Random(seed)
    out = []
    if workload == "lines":
        out.extend(["1 short", "1 put 0 x a", "1 commit"] * count)
    elif workload == "pairs":
        pairs(out, count, SMALL, draw)
    elif workload == "pairs-big":
        load(out, list(range(BIG)))
        pairs(out, count, BIG, draw)
    elif workload == "rising":
        load(out, list(range(count)))
    elif workload == "random":
        numbers = list(range(count))
        draw.shuffle(numbers)
        load(out, numbers)
    elif workload == "scans":
        load(out, list(range(BIG)))
        scans(out, count, draw)
    elif workload == "mixed":
        load(out, list(range(BIG)))
        mixed(out, count, draw)
    elif workload == "gets":
        load(out, list(range(BIG)))
        gets(out, count, draw)
    elif workload == "transfers":
        transfers(out, count, draw)
    elif workload == "sum":
        sum_beside(out, count, draw)
    elif workload.startswith("live-"):
        live(out, count, draw, int(workload.removeprefix("live-")))
    elif workload == "chain":
        chain(out, count)
    elif workload == "elder":
        elder(out, count)
    elif workload == "looks":
        load(out, list(range(BIG)))
        looks(out, count, draw)
    elif workload == "beside":
        beside(out, count, draw)
    elif workload == "base":
        load(out, list(range(BIG)))
    elif workload == "talk":
        talk(out, count, draw)
    else:
        sys.exit(__doc__)
    return out


if __name__ == "__main__":
    if len(sys.argv) not in (3, 4):
        sys.exit(__doc__)
    lines = script(sys.argv[1], int(sys.argv[2]), int(sys.argv[3]) if len(sys.argv) == 4 else 1)
    sys.stdout.write("\n".join(lines) + "\n")

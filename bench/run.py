#!/usr/bin/env python3
"""Runs the workloads of scripts.py through the program and prints a table.

usage: run.py PROGRAM [quick] [sqlite] [check]

PROGRAM is what the gate leaves at crates/ltx_run/out/ltx_run. Costs are instructions under valgrind's callgrind, less
those of the rows that a workload loads first; a workload of 1,000,000 rows is measured by processor time and peak of
memory alone. Under the row of 1,000 lines a transaction stands what of its cost lies outside the core: reader, parser,
printer and the end of the run; under one beside live batches, how many times the cost beside none it is. `quick` leaves
out what takes minutes. `sqlite` adds the same script's cost through
SQLite's C library (sqlite.c, built here where the library is installed), in memory, with prepared statements. `check` adds the cost
of checking what each run prints, and how many times the cost of printing it that is.
"""
import os
import re
import subprocess
import sys
import tempfile

from scripts import script

HERE = os.path.dirname(os.path.abspath(__file__))
TABLE = [
    # name, workload, counts, what a unit is
    ("three lines", "lines", (10_000, 30_000, 100_000), "transaction"),
    ("one get, one put; 1,000 keys", "pairs", (10_000, 100_000), "transaction"),
    ("one get, one put; 100,000 keys", "pairs-big", (10_000, 100_000), "transaction"),
    ("load in rising order", "rising", (10_000, 100_000), "row"),
    ("load in random order", "random", (10_000, 100_000), "row"),
    ("scan of 100 rows of 100,000", "scans", (1_000, 10_000), "transaction"),
    ("get, scan of 100, put; 100,000 rows", "mixed", (1_000, 10_000), "transaction"),
    ("a get among 100,000 rows", "gets", (10_000, 100_000), "get"),
    ("transfers; 1,000 rows; sums", "transfers", (10_000, 100_000), "transfer"),
    ("two sessions side by side; 1,000 keys", "beside", (10_000, 100_000), "pair"),
    ("transfers beside a sum on a snapshot", "sum", (10_000, 100_000), "transfer"),
    ("one get, one put; no live batch", "live-0", (10_000, 100_000), "transaction"),
    ("one get, one put; beside 1 live batch", "live-1", (10_000, 100_000), "transaction"),
    ("one get, one put; beside 8 live batches", "live-8", (10_000, 100_000), "transaction"),
    ("one get, one put; beside 64 live batches", "live-64", (10_000, 100_000), "transaction"),
    ("one get, one put; beside as many looks", "looks", (10_000, 100_000), "transaction"),
    ("batches, each of the row before it", "chain", (1_000, 10_000), "batch"),
    ("batches, each before one live elder", "elder", (200, 2_000), "batch"),
    ("get and put, 1,000 lines a transaction", "talk", (100_000,), "line"),
]
TIMED = [("load in rising order", "rising", 1_000_000), ("load in random order", "random", 1_000_000)]
LOADED = ("pairs-big", "scans", "mixed", "gets", "looks")
# two sessions at once are two connections, which a database in memory does not have; it has no batches either
NOT_IN_SQLITE = ("beside", "sum", "live-0", "live-1", "live-8", "live-64", "looks", "chain", "elder")


def write(folder, workload, count):
    path = os.path.join(folder, f"{workload}-{count}")
    with open(path, "w") as out:
        out.write("\n".join(script(workload, count, 1)) + "\n")
    return path


def instructions(program, path, folder):
    words = ["valgrind", "--tool=callgrind", f"--callgrind-out-file={folder}/out", *program]
    with open(path) as source:
        done = subprocess.run(words, stdin=source, stdout=subprocess.DEVNULL, stderr=subprocess.PIPE, text=True)
    if done.returncode != 0:
        sys.exit(f"{path}: status {done.returncode}")
    return int(re.search(r"Collected : (\d+)", done.stderr).group(1))


def in_core(folder):
    """The instructions of the last run that were spent in the core and below it."""
    words = ["callgrind_annotate", "--inclusive=yes", f"{folder}/out"]
    text = subprocess.run(words, capture_output=True, text=True).stdout
    costs = re.findall(r"^ *([\d,]+) .*:ltx_core::\w+::Core::", text, flags=re.M)
    return max((int(cost.replace(",", "")) for cost in costs), default=0)


def resources(program, path):
    """The processor time of a run in seconds, and its peak of memory in bytes."""
    with open(path) as source:
        run = subprocess.Popen(program, stdin=source, stdout=subprocess.DEVNULL)
    _, status, used = os.wait4(run.pid, 0)
    if status != 0:
        sys.exit(f"{path}: status {status}")
    return used.ru_utime, used.ru_maxrss * 1024


def transcript(program, path):
    """What a run of the script prints, in a file beside it."""
    with open(path) as source, open(f"{path}.out", "w") as out:
        if subprocess.run(program, stdin=source, stdout=out).returncode != 0:
            sys.exit(f"{path}: the run failed")
    return f"{path}.out"


def print_checks(program, folder, table):
    """The instructions that a check takes, an entry of the transcript."""
    print(f"{'check of what is printed':42} {'entries':>9} {'instructions an entry':>22} {'growth':>7} {'of the run':>10}")
    for name, workload, counts, _ in table:
        first = None
        for count in counts:
            path = write(folder, workload, count)
            printed = transcript(program, path)
            with open(printed) as text:
                entries = sum(1 for _ in text) - 2
            took = instructions([program[0], "check"], printed, folder)
            each = took / entries
            first = first or each
            print(f"{name:42} {entries:9} {each:22.0f} {each / first:7.2f} {took / instructions(program, path, folder):10.2f}", flush=True)


def sqlite(folder):
    """The words that run a script through SQLite, or None where its library is not installed."""
    program = os.path.join(folder, "sqlite")
    built = subprocess.run(["cc", "-O2", "-o", program, os.path.join(HERE, "sqlite.c"), "-lsqlite3"], capture_output=True)
    return [program] if built.returncode == 0 else None


def costs(program, folder, table):
    """The instructions a unit of each row, by workload and count."""
    loaded = instructions(program, write(folder, "base", 0), folder)
    for name, workload, counts, unit in table:
        for count in counts:
            total = instructions(program, write(folder, workload, count), folder)
            yield name, workload, count, unit, (total - (loaded if workload in LOADED else 0)) / count, total


def print_costs(program, folder, table):
    print(f"{'workload':42} {'count':>9} {'instructions a unit':>22} {'growth':>7}")
    first, alone = {}, {}
    for name, workload, count, unit, each, total in costs(program, folder, table):
        first.setdefault(workload, each)
        print(f"{name:42} {count:9} {each:12.0f} a {unit[:11]:11} {each / first[workload]:6.2f}", flush=True)
        if workload == "live-0":
            alone[count] = each
        elif workload.startswith("live-"):
            print(f"{'  against beside none':52} {each / alone[count]:12.2f}", flush=True)
        if workload == "talk" and len(program) > 1:
            print(f"{'  of it outside the core':52} {(total - in_core(folder)) / count:12.0f} a {unit}", flush=True)


def main():
    if len(sys.argv) < 2:
        sys.exit(__doc__)
    program, quick = [os.path.abspath(sys.argv[1]), "run"], "quick" in sys.argv[2:]
    table = [(name, workload, counts[:1], unit) if quick else (name, workload, counts, unit) for name, workload, counts, unit in TABLE]
    with tempfile.TemporaryDirectory() as folder:
        print_costs(program, folder, table)
        for name, workload, count in [] if quick else TIMED:
            took, peak = resources(program, write(folder, workload, count))
            print(f"{name:42} {count:9} {1e6 * took / count:12.2f} microseconds a row, {peak / count:.0f} bytes of memory", flush=True)
        if "check" in sys.argv[2:]:
            print()
            print_checks(program, folder, table)
        if "sqlite" in sys.argv[2:]:
            other = sqlite(folder)
            print("\nthe same through SQLite" if other else "\nSQLite's library is not installed")
            if other:
                print_costs(other, folder, [row for row in table if row[1] not in NOT_IN_SQLITE])


main()

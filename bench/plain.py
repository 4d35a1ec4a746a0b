#!/usr/bin/env python3
"""A plain, slow engine, written from docs/rules.md and docs/formats.md alone: it prints what the program must print.

usage: plain.py < SCRIPT

It keeps the agenda as a list and replays it whenever it wants rows, so it has no versions, marks or records to get wrong.
`flush` and `prune` are answered `later`, as the program answers them so far. Status 1: some reply is `bad`.
"""
import re
import sys

LAST_EPOCH, LAST_TX, MOST_OPERATIONS = 4_294_967_294, 9_223_372_036_854_775_807, 65_536


class Bad(Exception):
    """A line that spells no command, with its cause."""


def spell(text):
    """The one spelling of a byte string."""
    return "".join(chr(b) if 33 <= b <= 126 and b != 37 else f"%{b:02X}" for b in text) or "%"


def bytes_of(word, least, most, cause):
    """The byte string of a word, of so many bytes."""
    if word == "%":
        text = b""
    elif re.fullmatch(r"(?:[!-$&-~]|%[0-9A-F]{2})+", word):
        text = re.sub(rb"%(..)", lambda m: bytes([int(m.group(1), 16)]), word.encode())
    else:
        raise Bad(cause)
    if spell(text) != word or not least <= len(text) <= most:
        raise Bad(cause)
    return text


def number_of(word, low, high, cause):
    """The number of a decimal, in a range."""
    if not re.fullmatch(r"0|[1-9][0-9]{0,9}", word) or not low <= int(word) <= high:
        raise Bad(cause)
    return int(word)


def set_of(word, name, may_be_all):
    """The tables of a set behind its name."""
    if not word.startswith(name):
        raise Bad("sets")
    word = word[len(name):]
    if word == "*" and may_be_all:
        return set(range(64))
    if word == "-":
        return set()
    tables = [number_of(part, 0, 63, "sets") for part in word.split(",")]
    if any(a >= b for a, b in zip(tables, tables[1:])) or len(tables) == 64:
        raise Bad("sets")
    return set(tables)


ARGUMENTS = {
    "table": lambda word: number_of(word, 0, 63, "table"),
    "key": lambda word: bytes_of(word, 1, 64, "key"),
    "bound": lambda word: bytes_of(word, 0, 64, "key"),
    "value": lambda word: bytes_of(word, 0, 1_024, "value"),
    "writes": lambda word: set_of(word, "W=", True),
    "reads": lambda word: set_of(word, "R=", False),
}
VERBS = {
    "short": [[]],
    "long": [["writes"], ["writes", "reads"]],
    "get": [["table", "key"]],
    "scan": [["table", "bound", "bound"]],
    "put": [["table", "key", "value"]],
    "del": [["table", "key"]],
    "commit": [[]],
    "abort": [[]],
}


def read(line):
    """The command of a line: its words, arguments read."""
    if len(line) > 4_096:
        raise Bad("long")
    if not re.fullmatch(rb"[!-~]+(?: [!-~]+)*", line):
        raise Bad("words")
    words = line.decode().split(" ")
    if words[0] in ("epoch", "flush", "prune"):
        if len(words) > 1:
            raise Bad("words")
        return words
    session = number_of(words[0], 1, 1_024, "session")
    if len(words) < 2 or words[1] not in VERBS:
        raise Bad("verb")
    for kinds in VERBS[words[1]]:
        if len(kinds) == len(words) - 2:
            return [session, words[1], *(ARGUMENTS[kind](word) for kind, word in zip(kinds, words[2:]))]
    raise Bad("words")


class Look:
    """What an operation looked up: the keys of its range that the transaction had not written."""

    def __init__(self, operation, table, low, high, is_scan, own, found):
        self.operation = operation
        self.table = table
        self.low, self.high, self.is_scan = low, high, is_scan
        self.own = own  # the keys of the table that the transaction had written
        self.found = found  # the writers of the keys in its range that had a row

    def covers(self, table, key):
        in_range = self.low <= key and (not self.high or key < self.high) if self.is_scan else key == self.low
        return table == self.table and in_range

    def looks_up(self, table, key):
        return self.covers(table, key) and key not in self.own

    def looks_into(self, table):
        return table == self.table and (self.is_scan or self.low not in self.own)


class Transaction:
    """A short or a batch, open or committed."""

    def __init__(self, number, batch=None):
        self.number = number
        self.batch = batch  # the declared tables, the read area and the epoch of the slot, or None for a short
        self.snapshot = None  # of a live batch: the serial order at its slot
        self.since = []  # of a live batch: the batches that committed since its slot
        self.operations = 0
        self.looks = []  # of the operations that read
        self.touched = set()
        self.own = {}  # the last write of each cell: a value, or None for a deletion
        self.first_writes = {}  # the number of the operation that wrote a cell first

    def is_live(self):
        return self.snapshot is not None

    def looks_up(self, cell):
        return any(look.looks_up(*cell) for look in self.looks)

    def looks_into(self, tables):
        return any(look.looks_into(table) for look in self.looks for table in tables)


def rows_after(order):
    """The rows after these transactions, one after another: value and writer of each cell."""
    rows = {}
    for tx in order:
        for cell, value in tx.own.items():
            if value is None:
                rows.pop(cell, None)
            else:
                rows[cell] = (value, tx.number)
    return rows


class Engine:
    def __init__(self):
        self.epoch = 1
        self.last = 0
        self.open = {}  # by session
        self.agenda = []  # committed transactions and live batches, in order
        self.committed = set()

    def order(self):
        return [tx for tx in self.agenda if tx.number in self.committed]

    def live(self):
        return [tx for tx in self.agenda if tx.number not in self.committed]

    def holder(self, table):
        """The least live batch that declared the table."""
        return min((tx.number for tx in self.live() if table in tx.batch[0]), default=None)

    def answer(self, command):
        if command[0] == "epoch":
            return self.advance()
        if command[0] in ("flush", "prune"):
            return "later"
        session, verb, *arguments = command
        if verb in ("short", "long"):
            return self.begin(session, *arguments)
        tx = self.open.get(session)
        if tx is None:
            return "notx"
        if verb == "abort":
            self.end(session, tx)
            return "aborted"
        if tx.batch is not None and not tx.is_live():
            return f"notyet {tx.batch[2]}"
        if verb == "commit":
            return self.commit_batch(session, tx) if tx.batch else self.commit_short(session, tx)
        return self.operate(session, tx, verb, *arguments)

    def advance(self):
        if self.epoch == LAST_EPOCH:
            return "limit epoch"
        self.epoch += 1
        snapshot = self.order()
        pending = [tx for tx in self.open.values() if tx.batch is not None and not tx.is_live()]
        for tx in sorted(pending, key=lambda tx: tx.number):
            tx.snapshot = snapshot
            self.agenda.append(tx)
        return f"epoch {self.epoch}"

    def begin(self, session, *sets):
        if session in self.open:
            return "hastx"
        if sets and self.epoch == LAST_EPOCH:
            return "limit epoch"
        if self.last == LAST_TX:
            return "limit tx"
        self.last += 1
        if not sets:
            self.open[session] = Transaction(self.last)
            return f"begun {self.last}"
        reads = sets[1] if len(sets) > 1 else set(range(64))
        self.open[session] = Transaction(self.last, (sets[0], reads, self.epoch + 1))
        return f"begun {self.last} at {self.epoch + 1}"

    def end(self, session, tx):
        del self.open[session]
        if tx in self.agenda and tx.number not in self.committed:
            self.agenda.remove(tx)

    def refused(self, session, tx, reply):
        self.end(session, tx)
        return reply

    def operate(self, session, tx, verb, table, *arguments):
        if tx.batch is None:
            holder = self.holder(table)
            if holder is not None:
                return self.refused(session, tx, f"preserved {table} {holder}")
        elif verb in ("get", "scan") and table not in tx.batch[1]:
            return f"outside {table}"
        elif verb in ("put", "del") and table not in tx.batch[0]:
            return f"notpreserved {table}"
        if tx.operations == MOST_OPERATIONS:
            return "limit ops"
        tx.operations += 1
        tx.touched.add(table)
        if verb in ("put", "del"):
            tx.first_writes.setdefault((table, arguments[0]), tx.operations)
            tx.own[table, arguments[0]] = arguments[1] if verb == "put" else None
            return "done"
        return self.look(tx, verb, table, *arguments)

    def look(self, tx, verb, table, low, high=None):
        rows = rows_after(tx.snapshot if tx.batch is not None else self.order())
        look = Look(tx.operations, table, low, high, verb == "scan", {key for t, key in tx.own if t == table}, {})
        look.found = {key: writer for (t, key), (_, writer) in rows.items() if look.covers(t, key)}
        tx.looks.append(look)
        seen = {key: value for (t, key), (value, _) in rows.items() if look.covers(t, key)}
        seen.update({key: value for (t, key), value in tx.own.items() if look.covers(t, key)})
        shown = sorted((key, value) for key, value in seen.items() if value is not None)
        if verb == "get":
            return f"found {spell(shown[0][1])}" if shown else "none"
        return " ".join([f"rows {len(shown)}", *(f"{spell(key)} {spell(value)}" for key, value in shown)])

    def commit_short(self, session, tx):
        for table in sorted(tx.touched):
            holder = self.holder(table)
            if holder is not None:
                return self.refused(session, tx, f"preserved {table} {holder}")
        rows = rows_after(self.order())
        for look in tx.looks:
            now = {key: writer for (t, key), (_, writer) in rows.items() if look.covers(t, key)}
            for key in sorted(set(look.found) | set(now)):
                was, current = look.found.get(key, "none"), now.get(key, "none")
                if key not in look.own and was != current:
                    changed = f"changed {look.operation} {look.table} {spell(key)} {was} {current}"
                    return self.refused(session, tx, changed)
        self.agenda.append(tx)
        return self.accept(session, tx)

    def commit_batch(self, session, tx):
        overtaken = self.overtaken(tx)
        if not overtaken:
            return self.accept_batch(session, tx, "")
        target = min(overtaken, key=self.agenda.index)
        witness = self.late(tx, target) or self.contradicts(tx, target)
        waits = self.waits(tx, target, overtaken, witness)
        if waits:
            return f"waiting {min(other.number for other in waits)}"
        if witness:
            return self.refused(session, tx, witness)
        self.agenda.remove(tx)
        self.agenda.insert(self.agenda.index(target), tx)
        return self.accept_batch(session, tx, f" before {target.number}")

    def overtaken(self, tx):
        """The batches that a live one overtakes."""
        before = self.agenda[:self.agenda.index(tx)]
        passed = [other for other in tx.since if other in before and any(tx.looks_up(cell) for cell in other.own)]
        elders = [other for other in self.live() if other.number < tx.number and tx.looks_into(other.batch[0])]
        return passed + elders

    def late(self, tx, target):
        """The first key that a batch looked up and whose last writer in its snapshot stands from the target on."""
        place = self.agenda.index(target)
        last = {cell: other for other in tx.snapshot for cell in other.own}
        for look in tx.looks:
            for table, key in sorted(cell for cell in last if look.looks_up(*cell)):
                writer = last[table, key]
                if self.agenda.index(writer) >= place:
                    return f"late {target.number} {look.operation} {table} {spell(key)} {writer.number}"
        return None

    def contradicts(self, tx, target):
        """The first key that a batch wrote and that somebody from the target on looked up, before it was written again."""
        behind = [other for other in self.agenda[self.agenda.index(target):] if other.number in self.committed]
        for (table, key), operation in sorted(tx.first_writes.items(), key=lambda item: item[1]):
            for other in behind:
                if other.looks_up((table, key)):
                    return f"contradicts {target.number} {operation} {table} {spell(key)} {other.number}"
                if (table, key) in other.own:
                    break
        return None

    def waits(self, tx, target, overtaken, witness):
        """The live batches for which a batch waits."""
        live = self.live()
        if witness:
            return [other for other in overtaken if other in live]
        place, written = self.agenda.index(target), {table for table, _ in tx.own}
        return [other for other in live
                if other.number < tx.number and self.agenda.index(other) >= place and other.batch[1] & written]

    def accept_batch(self, session, tx, where):
        reply = self.accept(session, tx) + where
        for other in self.live():
            other.since.append(tx)
        return reply

    def accept(self, session, tx):
        self.committed.add(tx.number)
        del self.open[session]
        return f"committed {self.epoch}"


def run(script):
    """The text that is printed for a script, and the status."""
    engine, out, status = Engine(), [], 0
    lines = script.split(b"\n")
    if not lines[-1]:
        lines.pop()
    for line in lines:
        try:
            command = read(line)
        except Bad as bad:
            out.append(f"? => bad {bad}")
            status = 1
        else:
            out.append(f"{line.decode()} => {engine.answer(command)}")
    out.append(" ".join(["order", *(str(tx.number) for tx in engine.order())]))
    out.append("durable 0")
    return "\n".join(out) + "\n", status


def main():
    text, status = run(sys.stdin.buffer.read())
    sys.stdout.write(text)
    return status


if __name__ == "__main__":
    sys.exit(main())

#!/usr/bin/env python3
"""A plain, slow checker of transcripts, written from docs/formats.md alone: it prints what the word `check` must print.

usage: plain_check.py < TRANSCRIPT

It compares all pairs of commits, and replays on one dictionary. Status 11: the transcript has a fault.
"""
import re
import sys

import plain

COUNT, TX = 4_294_967_295, plain.LAST_TX
CAUSES = {"verb", "session", "table", "key", "value", "sets", "words", "long"}
ENDS = {"committed", "before", "aborted", "preserved", "changed", "late", "contradicts"}
GIVES = {
    "begun": {"short"}, "begun at": {"long"}, "found": {"get"}, "none": {"get"}, "rows": {"scan"}, "done": {"put", "del"},
    "committed": {"commit"}, "before": {"commit"}, "changed": {"commit"}, "late": {"commit"}, "contradicts": {"commit"},
    "aborted": {"abort"}, "preserved": {"get", "scan", "put", "del", "commit"},
}


class No(Exception):
    """A fault: its line and its kind."""


def number(word, low, high):
    if not re.fullmatch(r"0|[1-9][0-9]{0,19}", word) or not low <= int(word) <= high:
        raise ValueError(word)
    return int(word)


def bytes_in(word, least, most):
    try:
        return plain.bytes_of(word, least, most, "")
    except plain.Bad as bad:
        raise ValueError(word) from bad


def writer(word):
    return None if word == "none" else number(word, 1, TX)


PARTS = {
    "n": lambda word: number(word, 1, TX), "e": lambda word: number(word, 0, COUNT), "o": lambda word: number(word, 1, COUNT),
    "t": lambda word: number(word, 0, 63), "k": lambda word: bytes_in(word, 1, 64), "v": lambda word: bytes_in(word, 0, 1_024),
    "w": writer,
}
SHAPES = {
    "begun": [("begun", "n"), ("begun at", "n at e")], "found": [("found", "v")], "none": [("none", "")], "done": [("done", "")],
    "committed": [("committed", "e"), ("before", "e before n")], "aborted": [("aborted", "")], "preserved": [("preserved", "t n")],
    "changed": [("changed", "o t k w w")], "late": [("late", "n o t k n")], "contradicts": [("contradicts", "n o t k n")],
    "waiting": [("", "n")], "notyet": [("", "e")], "outside": [("", "t")], "notpreserved": [("", "t")], "notx": [("", "")],
    "hastx": [("", "")], "limit": [("", "epoch"), ("", "ops"), ("", "tx"), ("", "log")], "epoch": [("", "e")], "durable": [("", "e")],
    "pruned": [("", "")], "later": [("", "")],
}


def reply(text):
    """The kind of a reply, or an empty one where it neither begins, answers nor ends, and its parts."""
    words = text.split(" ")
    if words[0] == "rows":
        count = number(words[1], 0, 2**64 - 1) if len(words) > 1 else -1
        if len(words) != 2 + 2 * count:
            raise ValueError(text)
        rows = [(bytes_in(k, 1, 64), bytes_in(v, 0, 1_024)) for k, v in zip(words[2::2], words[3::2])]
        if any(a[0] >= b[0] for a, b in zip(rows, rows[1:])):
            raise ValueError(text)
        return "rows", rows
    for kind, shape in SHAPES.get(words[0], []):
        shape = shape.split(" ") if shape else []
        if len(shape) == len(words) - 1 and all(len(s) == 1 or s == w for s, w in zip(shape, words[1:])):
            parts = [PARTS[s](w) for s, w in zip(shape, words[1:]) if len(s) == 1]
            if kind == "changed" and parts[3] == parts[4]:
                raise ValueError(text)
            return kind, parts
    raise ValueError(text)


def entry(line):
    """The command of a line, or None for a malformed one, and its reply."""
    text = line.decode("latin-1")
    if text.startswith("? => "):
        if text[5:9] != "bad " or text[9:] not in CAUSES:
            raise ValueError(text)
        return None, ("", [])
    for here in re.finditer("(?= => )", text):
        try:
            command = plain.read(line[:here.start()])
        except plain.Bad:
            continue
        answer = text[here.start() + 4:]
        if answer.startswith("bad ") and answer[4:] in CAUSES:
            return command, ("", [])
        return command, reply(answer)
    raise ValueError(text)


def numbers(line, word):
    text = line.decode("latin-1")
    if not text.startswith(word):
        raise ValueError(text)
    rest = text[len(word):]
    if rest and not rest.startswith(" "):
        raise ValueError(text)
    return rest[1:].split(" ") if rest else []


def reading(text):
    """The entries and the order."""
    lines, at, entries = text.split(b"\n"), 0, []
    ended = len(lines) - 1  # so many have a line feed

    def need(read):
        try:
            if at >= ended:
                raise ValueError
            return read(lines[at])
        except ValueError:
            raise No(at + 1, "text") from None

    while at < ended:
        try:
            entries.append(entry(lines[at]))
        except ValueError:
            break
        at += 1
    order = need(lambda line: [number(word, 1, TX) for word in numbers(line, "order")])
    at += 1

    def durable(line):
        word, = numbers(line, "durable")
        return number(word, 0, COUNT)

    need(durable)
    at += 1
    if at < ended or lines[-1]:
        raise No(at + 1, "text")
    return entries, order


def check(text):
    entries, order = reading(text)
    opened, last, told, commits = {}, 0, {}, []
    for line, (command, (kind, parts)) in enumerate(entries, 1):
        verb = command[1] if command and len(command) > 1 else None
        session = command[0] if verb else None
        seat = opened.get(session)
        if kind in GIVES and verb not in GIVES[kind]:
            raise No(line, "open")
        if kind in ("begun", "begun at"):
            if seat or parts[0] <= last:
                raise No(line, "open")
            last = parts[0]
            opened[session] = (last, kind == "begun")
        elif kind in GIVES:
            if not seat or kind == "before" and seat[1]:
                raise No(line, "open")
            if kind in ENDS:
                del opened[session]
                if kind in ("committed", "before"):
                    commits.append((seat[0], "short" if seat[1] else kind, line))
            else:
                told.setdefault(seat[0], []).append((line, command, kind, parts))
    if sorted(order) != sorted(n for n, _, _ in commits):
        raise No(len(entries) + 1, "order")
    rows, other = {}, []
    for n in order:
        for line, command, kind, parts in told.get(n, []):
            if gets(rows, command) != (kind, parts):
                other.append(line)
            if command[1] == "put":
                rows[command[2], command[3]] = command[4]
            elif command[1] == "del":
                rows.pop((command[2], command[3]), None)
    if other:
        raise No(min(other), "replay")
    place = {n: i for i, n in enumerate(order)}
    wrong = [line for n, way, line in commits for m, how, when in commits if place[n] < place[m]
             and (way == "short" and when < line or way == "committed" and how != "short" and m < n)]
    if wrong:
        raise No(min(wrong), "marks")


def gets(rows, command):
    if command[1] == "get":
        found = rows.get((command[2], command[3]))
        return ("none", []) if found is None else ("found", [found])
    if command[1] == "scan":
        table, low, high = command[2:]
        return "rows", sorted((k, v) for (t, k), v in rows.items() if t == table and low <= k and (not high or k < high))
    return "done", []


def verdict(text):
    try:
        check(text)
    except No as no:
        return "no {} {}\n".format(*no.args)
    return "yes\n"


if __name__ == "__main__":
    said = verdict(sys.stdin.buffer.read())
    sys.stdout.write(said)
    sys.exit(0 if said == "yes\n" else 11)

#!/usr/bin/env python3
"""Writes a show file from a text, one record a line, for examples and tests: make_show.py TEXT SHOW

    restore PART
    save PART
    instruct PART CODE ARGS.. -> RESULTS..
    send PART PORT ARGS..
    receive PART PORT -> RESULTS..
    bytes HH HH ..          bytes 2 on of a record as they are, the rest zero
    at INDEX                the next line's record stands at INDEX (else after the one before)

The records are chained in the order of the lines. `#` starts a comment.
"""
import sys


def cells(words):
    return b"".join(int(w).to_bytes(2, "little") for w in words)


def body(words):
    kind, rest = words[0], words[1:]
    args, results = (rest[: rest.index("->")], rest[rest.index("->") + 1 :]) if "->" in rest else (rest, [])
    if kind in ("restore", "save"):
        return bytes([int(rest[0]), {"restore": 1, "save": 2}[kind]])
    part, number, args = int(args[0]), int(args[1]), args[2:]
    code, port, byte = {"instruct": (number, 0, 3), "send": (0, number, 4), "receive": (0, number, 5)}[kind]
    return bytes([part, byte, code, port, len(args), len(results)]) + cells(args).ljust(16, b"\0") + cells(results)


def main(text, show):
    records, at, order = {}, 0, []
    for line in open(text):
        words = line.split("#")[0].split()
        if not words:
            continue
        if words[0] == "at":
            at = int(words[1]) - 1
            continue
        at += 1
        records[at] = bytes.fromhex("".join(words[1:])) if words[0] == "bytes" else body(words)
        order.append(at)
    size = max(order, default=0) + 1
    file = bytearray(32 * size)
    for here, following in zip([0] + order, order + [0]):
        file[32 * here : 32 * here + 2] = following.to_bytes(2, "little")
    for index, content in records.items():
        file[32 * index + 2 : 32 * index + 2 + len(content)] = content
    open(show, "wb").write(file)


main(*sys.argv[1:3])

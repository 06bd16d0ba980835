#!/usr/bin/env python3
"""Writes the questions of the program `tables` from vectors in JSON: tests/tables.py VECTORS DATA

VECTORS has reading.jsonl and compiling.jsonl; DATA gets reading.txt and compiling.txt. A line of these is one question with
its answer, in decimal numbers:

  1  words of the table, its words;  bytes of the line, its bytes;  the six numbers of the set;
     the set's answer: kind, weight or number, place;  the best reading: kind, weight or number, place, six numbers
  2  K;  bytes of the pattern, its bytes;  words of the room;  the answer: kind, number, place;
     words that the answer leaves at the start of the room, these words

Kinds of answer: 0 a weight, a reading, a table; 1 no reading; 2 a refusal with number and place.
"""
import json
import sys


def records(path):
    with open(path, encoding="ascii") as lines:
        return [json.loads(line) for line in lines]


def counted(numbers):
    return [len(numbers), *numbers]


def reading(record):
    weight, best = record["weight_of_set"], record["best_reading"]
    of_set = [0, weight[1], 0] if weight[0] == "weight" else [2, weight[1], weight[2]]
    if best[0] == "reading":
        of_line = [0, best[1], 0, *best[2]]
    elif best[0] == "none":
        of_line = [1] + [0] * 8
    else:
        of_line = [2, best[1], best[2]] + [0] * 6
    return [1, *counted(record["table"]), *counted(bytes.fromhex(record["line"])), *record["set"], *of_set, *of_line]


def compiling(record):
    answer = record["answer"]
    if answer[0] == "ok":
        left = [0, 0, 0, *counted(answer[1])]
    else:
        left = [2, answer[1], answer[2], 0]
    return [2, record["K"], *counted(bytes.fromhex(record["pattern"])), record["room"], *left]


def main():
    if len(sys.argv) != 3:
        sys.exit("usage: tests/tables.py VECTORS DATA")
    vectors, data = sys.argv[1:]
    for name, line in (("reading", reading), ("compiling", compiling)):
        with open(f"{data}/{name}.txt", "w", encoding="ascii") as out:
            for record in records(f"{vectors}/{name}.jsonl"):
                print(*line(record), file=out)


main()

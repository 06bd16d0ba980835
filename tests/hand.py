#!/usr/bin/env python3
"""Writes the questions of the program `tables` that were made by hand: tests/hand.py ORACLE DATA

ORACLE is the built oracle (tests/oracle/); DATA gets hand-reading.txt and hand-compiling.txt, in the form that tests/tables.py
describes. The questions are the bench examples of 01 that are run, tables drawn by hand to catch the ways this has been got wrong,
tables with one rule broken, and texts at the edges of the grammar and of the limits. The answers are the oracle's.
"""
import subprocess
import sys

MARK = 4294967295


def byte(lo, hi=None):
    return ord(lo) * 256 + ord(hi or lo)


def table(K, ends, rows):
    return [len(ends), K, len(rows), *ends, *(word for row in rows for word in row)]


a, any_byte = byte("a"), 255
loop = table(0, [5, 7], [(0, 1, 0, a, 0), (1, 1, 0, a, 2)])
# The light way to state 2 opens the variable twice; the valid way weighs 9.
twice = table(1, [MARK] * 4 + [0], [(0, 1, 1, 1, 0), (1, 2, 1, 1, 0), (0, 2, 1, 1, 9), (2, 3, 0, a, 0), (3, 4, 2, 1, 0)])
# Two variables opened and closed at one position, the orders weighing differently.
orders = table(2, [MARK] * 6 + [0, MARK], [(0, 1, 1, 1, 5), (1, 2, 1, 2, 0), (0, 3, 1, 2, 1), (3, 2, 1, 1, 1), (2, 4, 0, a, 0),
                                           (4, 5, 2, 1, 0), (5, 6, 2, 2, 4), (4, 7, 2, 2, 0), (7, 6, 2, 1, 3)])
equal_rows = table(0, [MARK, 0], [(0, 1, 0, a, 3), (0, 1, 0, a, 3), (0, 1, 0, a, 1)])
no_rows = table(0, [7], [])
def loose(K):
    return table(K, [0], [(0, 0, 0, any_byte, 1)] + [(0, 0, kind, v, v) for v in range(1, K + 1) for kind in (1, 2)])
closes_first = table(1, [MARK, MARK, 0], [(0, 1, 2, 1, 0), (1, 2, 1, 1, 0)])
extremes = table(0, [MARK, MARK, 1], [(0, 1, 0, 0, 0), (1, 2, 0, byte("\xff"), 1000000)])
none, one = [0] * 6, [1, 1, 0, 0, 0, 0]

readings = [(loop, line, none) for line in (b"", b"a", b"aa", b"b", b"ab", b"a" * 1024, b"a" * 1025)]
readings += [(twice, b"a", [1, 2, 0, 0, 0, 0]), (twice, b"", one), (twice, b"aa", [1, 3, 0, 0, 0, 0])]
readings += [(orders, b"a", [1, 2, 1, 2, 0, 0]), (orders, b"a", [1, 2, 1, 1, 0, 0]), (orders, b"", [1, 1, 1, 1, 0, 0])]
readings += [(equal_rows, b"a", none), (no_rows, b"", none), (no_rows, b"a", none), (closes_first, b"", one)]
readings += [(loose(K), line, [1 if i < 2 * K else 0 for i in range(6)]) for K in range(4) for line in (b"", b"x", b"xy", b"\x00\xff")]
readings += [(extremes, line, none) for line in (b"\x00\xff", b"\xff\x00", b"\x00", b"")]
# Sets that are none of the line, and the order 7, 8, 9.
for bad in ([0, 1, 0, 0, 0, 0], [2, 1, 0, 0, 0, 0], [1, 3, 0, 0, 0, 0], [1, 1, 1, 1, 0, 0], [1, 1, 0, 0, 0, 1], [MARK, MARK, 0, 0, 0, 0]):
    readings += [(twice, b"a", bad), (twice, b"a" * 1025, bad), (twice[:-1], b"a" * 1025, bad)]
# One rule broken at a time; and words after the table, which are ignored.
def changed(at, word, base=twice):
    return base[:at] + [word] + base[at + 1:]
first_row, broken = 3 + 5, []
broken += [changed(0, S) for S in (0, 33, MARK)] + [changed(1, K) for K in (4, MARK)] + [changed(2, R) for R in (6, 1025, MARK)]
broken += [changed(3, end) for end in (1000001, MARK - 1)] + [changed(1, 0)]
broken += [changed(first_row, 5), changed(first_row + 1, 5), changed(first_row + 2, 3), changed(first_row + 2, MARK)]
broken += [changed(first_row + 3, v) for v in (0, 2)] + [changed(first_row + 4, 1000001)]
broken += [changed(3 + 5 + 15 + 3, argument) for argument in (byte("b", "a"), 65536, MARK)]
broken += [[], [1], [1, 0], [1, 0, 0], twice[:-1], twice + [MARK, 7], changed(3, 1000000), changed(first_row + 4, 1000000)]
readings += [(words, b"a", [1, 2, 0, 0, 0, 0]) for words in broken]

texts = [(0, t) for t in (b"", b"a)", b"[9-0]", b"(a", b"a#12", b"a|", b"*a", b"\\", b"(" * 100, b"(" * 255, b"(" * 256)]
texts += [(1, b"{2:a}"), (0, b"a" * 31), (0, b"a" * 32), (0, b"a" * 255), (0, b"a" * 256), (0, b"~" * 255), (0, b"~#999" * 51)]
texts += [(0, b"(" * n + b"a" + b")" * n) for n in (1, 16, 17, 100)] + [(3, b"{1:" * n + b"a" + b"}" * n) for n in (15, 16, 17)]
texts += [(0, t) for t in (b"[]-]]", b"[--.]", b"[\\-]]", b"[[-[]", b"[a-", b"[a", b"[", b"[ab", b"[a-b", b"[\x1f-a]", b"[ -\x7f]", b"[ -~]")]
texts += [(0, t) for t in (b"\\\\", b"\\a", b"\\(", b"\\\x7f", b"a#0011", b"a#00a", b"a#", b"#001", b"a##001", b"~#007", b"~", b"~*", b"(~)*", b"(~#005)*", b"~*#005")]
texts += [(0, t) for t in (b"\x00", b"a\x00", b"\x80", b"a\xff", b"a\r", b"a\n", b"\x7e", b"\x7f", b" ", b"a b", b"a:-0", b"()", b"(|a)", b"a||b", b"|a", b"a]", b"a}", b"a{")]
texts += [(K, t) for K in (0, 1, 3, 4, 7, MARK) for t in (b"{1:a}", b"{", b"{1", b"{1:", b"{1:}", b"{1:a", b"{3:a}{1:b}", b"{0:a}", b"{4:a}")]
texts += [(0, t) for t in (b"a", b"(a#002)*#005", b"a#003|a#001", b"a**", b"a*#001*#002", b"(a|b)*c", b"(a|~#003)*", b"((a*)*)*", b".", b".*", b"(.*)*")]
texts += [(2, b"{1:~}{2:~}"), (2, b"({1:a}|{2:b})*"), (1, b".*{1:[0-9][0-9]*}.*"), (1, b"({1:a})*")]
full = b"(" + b"a*" * 31 + b")*"
compilings = [(K, text, 5000) for K, text in texts] + [(0, full, 4995), (0, full, 4994), (0, full, 0)]
compilings += [(0, b"a", 10), (0, b"a", 9), (0, b"a", 0), (0, b"~#007", 4), (0, b"~#007", 3), (0, b"a#12", 0), (9, b"", 0)]


def refusal(answer):
    number, place = answer.split()[1:]
    return [2, int(number), int(place)]


def asked(oracle, *words, stdin):
    return subprocess.run([oracle, "--fast", *map(str, words)], input=stdin, capture_output=True, check=True).stdout.decode()


def counted(numbers):
    return [len(numbers), *numbers]


def reading(question, answer):
    words, line, spans = question
    of_set, of_line = answer.split(" | ")
    left = refusal(of_set) if of_set.startswith("refused") else [0, int(of_set.split()[1]), 0]
    if of_line.startswith("refused"):
        left += refusal(of_line) + [0] * 6
    elif of_line.startswith("none"):
        left += [1] + [0] * 8
    else:
        weight, found = of_line.split()[1:]
        left += [0, int(weight), 0, *map(int, found.split(","))]
    return [1, *counted(words), *counted(line), *spans, *left]


def compiling(question, answer):
    K, text, room = question
    if answer.startswith("refused"):
        left = refusal(answer) + [0]
    else:
        left = [0, 0, 0, *counted([int(word) for word in answer.split(",")])]
    return [2, K, *counted(text), room, *left]


def main():
    if len(sys.argv) != 3:
        sys.exit("usage: tests/hand.py ORACLE DATA")
    oracle, data = sys.argv[1:]
    with open(f"{data}/hand-reading.txt", "w", encoding="ascii") as out:
        for question in readings:
            words, line, spans = question
            text = f"{','.join(map(str, words))}\n{line.hex()}\n{','.join(map(str, spans))}\n"
            print(*reading(question, asked(oracle, "table", stdin=text.encode())), file=out)
    with open(f"{data}/hand-compiling.txt", "w", encoding="ascii") as out:
        for question in compilings:
            print(*compiling(question, asked(oracle, "compile", question[0], question[2], stdin=question[1])), file=out)


main()

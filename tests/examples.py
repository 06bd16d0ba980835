# Compares a reader with the examples of a document:
#   python3 tests/examples.py READER docs/CARDS.md
# An example is a block fenced as `card` (a card and lines) and the next one fenced as
# `answer` (all that the program `reading` writes for it).
import re, subprocess, sys

*reader, document = sys.argv[1:]
blocks = re.findall(r"^```(card|answer)\n(.*?)^```$", open(document).read(), re.M | re.S)
cards, answers = blocks[0::2], blocks[1::2]
assert [kind for kind, _ in blocks] == ["card", "answer"] * len(answers), "blocks out of order"
wrong = 0
for (_, card), (_, answer) in zip(cards, answers):
    got = subprocess.run(reader, input=card.encode(), stdout=subprocess.PIPE).stdout.decode()
    if got != answer:
        wrong += 1
        print(f"for\n{card}got\n{got}expected\n{answer}")
print(f"examples: {len(answers)} cases, {wrong} differences")
sys.exit(wrong != 0)

# Compares the oracle's two ways on random small tables, lines and sets:
#   python3 tests/oracle/agree.py ORACLE [TESTS [SEED]]
# ORACLE is oracle.rs, built. Some tables break a rule, some sets are none of the line.
import random, subprocess, sys

MARK = 4294967295
BYTES = b"ab1"


def row(rng, states, k):
    kind = rng.choice([0, 0, 1, 2]) if k else 0
    lo, hi = sorted(rng.choice(BYTES) for _ in "lh")
    argument = lo * 256 + hi if kind == 0 else rng.randint(1, k)
    return [rng.randrange(states), rng.randrange(states), kind, argument, weight(rng)]


def weight(rng):
    return rng.choice([0, 0, 1, 2, 3, 5, 1000000])


def table(rng):
    states, k, rows = rng.choice([1, 1, 2, 3, 5]), rng.randint(0, 3), rng.randint(0, 6)
    ends = [rng.choice([MARK, weight(rng)]) for _ in range(states)]
    body = [row(rng, states, k) for _ in range(rows)]
    if rng.random() < 0.5:  # each marker somewhere, or few tables would have valid runs
        at = rng.randrange(states)
        body += [[at, at, kind, v, weight(rng)] for v in range(1, k + 1) for kind in (1, 2)]
        ends[at] = weight(rng)
        rng.shuffle(body)
    words = [states, k, len(body), *ends, *sum(body, []), *rng.choice([[], [], [7]])]
    if rng.random() < 0.1:  # likely to break a rule
        words[rng.randrange(len(words))] = rng.choice([0, 1, 4, 33, 1000001, MARK])
    return words[: rng.randrange(len(words))] if rng.random() < 0.03 else words, k


def spans(rng, k, n):
    used = [p for _ in range(k) for p in sorted(rng.randint(1, n + 1) for _ in "se")]
    numbers = used + [0] * (6 - 2 * k)
    if rng.random() < 0.1:
        numbers[rng.randrange(6)] = rng.choice([0, 1, n + 2])
    return numbers


def main(oracle, count=20000, seed=1):
    rng = random.Random(int(seed))
    tests = []
    for _ in range(int(count)):
        words, k = table(rng)
        line = bytes(rng.choice(BYTES) for _ in range(rng.randint(0, 5)))
        numbers = [words, spans(rng, k, len(line))]
        words, numbers = (",".join(map(str, x)) for x in numbers)
        tests.append(f"{words}\n{line.hex()}\n{numbers}\n")
    ask = lambda *way: subprocess.run(
        [oracle, "table", *way], input="".join(tests), text=True, stdout=subprocess.PIPE, check=True
    ).stdout.splitlines()
    slow, fast = ask(), ask("--fast")
    large = slow.count("too large")
    wrong = 0
    for test, one, other in zip(tests, slow, fast, strict=True):
        if one != other and one != "too large":
            wrong += 1
            print(f"{test}enumerated: {one}\nfast:       {other}")
    kinds = {kind: sum(f"| {kind}" in answer for answer in slow) for kind in ("found", "none", "refused")}
    weighed = sum(a.startswith("weight") and not a.startswith(f"weight {MARK}") for a in slow)
    print(f"tables: {len(slow)} cases {kinds}, {weighed} sets with a run, {large} too large, {wrong} differences")
    return wrong > 0


sys.exit(main(*sys.argv[1:]))

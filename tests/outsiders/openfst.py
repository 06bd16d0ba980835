# Compares a reader's weights with OpenFst's shortest distance, K from 0 to 2, with charges:
#   python3 tests/outsiders/openfst.py READER [CARDS [SEED]]
# Needs g++ and OpenFst (Debian: libfst-dev). A pattern is built by its union, concatenation
# and closure over bytes and markers; a line is the acceptor of all its valid markings; the
# weight is the shortest distance of the two composed.
import pathlib, random, subprocess, sys, tempfile
import cards


def label(byte):
    return byte + 1  # 0 reads nothing


def marker(v, close):
    return 300 + 2 * v + close


def step(labels):
    return ["step", len(labels), *labels]


def pattern_words(t):
    """The pattern for openfst.cc, in postfix order."""
    kind = t[0]
    if kind == "nothing":
        return ["charge", 0]
    if kind == "range":
        return step([label(b) for b in range(t[1], t[2] + 1)])
    inside = pattern_words(t[1])
    if kind == "star":
        return [*inside, "star"]
    if kind == "charge":
        return [*inside, "charge", t[2], "cat"]
    if kind == "capture":
        return [*step([marker(t[2], 0)]), *inside, "cat", *step([marker(t[2], 1)]), "cat"]
    return [*inside, *pattern_words(t[2]), "cat" if kind == "cat" else "union"]


def line_words(line, k):
    """All valid markings of a line: a state is a position with a setting of the variables."""
    settings = 3**k
    arcs = []
    for at in range(len(line) + 1):
        for u in range(settings):
            here = at * settings + u
            if at < len(line):
                arcs.append((here, here + settings, label(line[at])))
            for v in range(1, k + 1):
                digit = u // 3 ** (v - 1) % 3  # 0 untouched, 1 open, 2 shut
                if digit < 2:
                    arcs.append((here, here + 3 ** (v - 1), marker(v, digit)))
    end = (len(line) + 1) * settings - 1
    return ["line", len(arcs), *[word for arc in arcs for word in arc], end]


def distances(program, t, k, asked):
    words = pattern_words(t) + [word for line in asked for word in line_words(line, k)]
    run = subprocess.run([program], input=" ".join(map(str, words)).encode(), stdout=subprocess.PIPE, check=True)
    return [None if word == b"none" else int(word) for word in run.stdout.split()]


def main(reader, count=1000, seed=1):
    rng = random.Random(int(seed))
    total = 0
    with tempfile.TemporaryDirectory() as folder:
        program = folder + "/openfst"
        source = pathlib.Path(__file__).with_suffix(".cc")
        subprocess.run(["g++", "-std=c++17", "-O1", "-o", program, source, "-lfst", "-ldl", "-pthread"], check=True)
        for k in range(3):
            cases = read = wrong = 0
            for t, pattern, asked in cards.cards(rng, int(count), k, True, 12, 10):
                weights = cards.answers(reader, k, pattern, asked)
                for line, weight, expected in zip(asked, weights, distances(program, t, k, asked), strict=True):
                    cases, read = cases + 1, read + (weight is not None)
                    if weight != expected:
                        wrong += 1
                        print(f"K={k} pattern {pattern} line {line}: reader {weight}, OpenFst {expected}")
            print(f"K={k}: {count} cards, {cases} cases ({read} read), {wrong} differences")
            total += wrong
    return total > 0


sys.exit(main(*sys.argv[1:]))

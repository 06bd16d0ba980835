# Compares a reader with regular expression engines on whole lines, K = 0, no charges:
#   python3 tests/outsiders/regexes.py READER [CARDS [SEED]]
# Engines: Python's re; the package `regex` if installed; RE2 if g++ and its headers
# (Debian: libre2-dev) are there.
import pathlib, random, re, subprocess, sys, tempfile
import cards

try:
    import regex
except ImportError:
    regex = None


LONGEST_LINE = 8  # engines that go back over a line take time exponential in it


def expression(t):
    kind = t[0]
    if kind == "nothing":
        return "(?:)"
    if kind == "range":
        return "[\\x%02x-\\x%02x]" % (t[1], t[2])
    if kind == "star":
        return "(?:%s)*" % expression(t[1])
    inside = [expression(x) for x in t[1:]]
    return "(?:%s)" % ("|" if kind == "alt" else "").join(inside)


def python_engine(module):
    def match(t, asked):
        whole = module.compile(expression(t).encode(), module.DOTALL)
        return [whole.fullmatch(line) is not None for line in asked]

    return match


def re2_engine(folder):
    """A program that RE2 is linked into, or None where it cannot be built."""
    source = pathlib.Path(__file__).with_name("re2.cc")
    program = pathlib.Path(folder) / "re2"
    try:
        subprocess.run(["g++", "-O1", "-o", program, source, "-lre2"], check=True, stderr=subprocess.DEVNULL)
    except (OSError, subprocess.CalledProcessError):
        return None

    def match(t, asked):
        data = "\n".join([expression(t), *[line.hex() for line in asked]]) + "\n"
        run = subprocess.run([program], input=data.encode(), stdout=subprocess.PIPE, check=True)
        return [answer == b"1" for answer in run.stdout.split()]

    return match


def main(reader, count=3000, seed=1):
    rng = random.Random(int(seed))
    with tempfile.TemporaryDirectory() as folder:
        engines = {"re": python_engine(re), "regex": regex and python_engine(regex), "RE2": re2_engine(folder)}
        engines = {name: engine for name, engine in engines.items() if engine}
        cases = matches = 0
        wrong = dict.fromkeys(engines, 0)
        for t, pattern, asked in cards.cards(rng, int(count), 0, False, 12, LONGEST_LINE):
            weights = cards.answers(reader, 0, pattern, asked)
            cases += len(asked)
            matches += sum(w == 0 for w in weights)
            for name, engine in engines.items():
                for line, weight, match in zip(asked, weights, engine(t, asked), strict=True):
                    if weight != (0 if match else None):
                        wrong[name] += 1
                        print(f"{name}: pattern {pattern} line {line}: reader {weight}, engine {match}")
    for name in engines:
        print(f"{name}: {count} cards, {cases} cases ({matches} read), {wrong[name]} differences")
    return any(wrong.values())


sys.exit(main(*sys.argv[1:]))

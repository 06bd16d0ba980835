# Random cards with lines that suit them, for the comparisons with other engines.
import shlex, subprocess

SPECIAL = b"|*#()[]{}\\.~"
ODD = b" ~\\|*.-]0\x00\x7f\x80\xff"  # bytes of lines that are easily got wrong
PLAIN = b"ab01:-= E"
LONGEST_PATTERN, MOST_STEPS = 255, 31


def tree(rng, size, k, charges):
    """A pattern as nested tuples, `size` leaves at most."""
    if size <= 1:
        return leaf(rng)
    kind = rng.choice(["cat", "cat", "alt", "star", "capture" if k else "cat", "charge" if charges else "cat"])
    if kind in ("cat", "alt"):
        left = rng.randint(1, size - 1)
        return (kind, tree(rng, left, k, charges), tree(rng, size - left, k, charges))
    inside = tree(rng, size - 1, k, charges)
    if kind == "star":
        return ("star", inside)
    if kind == "charge":
        return ("charge", inside, rng.choice([0, 1, 2, 3, 5, 10, 999]))
    return ("capture", inside, rng.randint(1, k))


def marked_tree(rng, size, k, charges):
    """A pattern that marks each variable once, side by side or one inside another."""
    whole = tree(rng, size, 0, charges)
    for v in rng.sample(range(1, k + 1), k):
        parts = [tree(rng, rng.randint(1, 3), 0, charges) for _ in "ab"]
        if rng.random() < 0.4:
            whole = ("capture", whole, v)
        else:
            parts[0] = ("capture", parts[0], v)
        whole = ("cat", *rng.sample([whole, ("cat", *parts)], 2))
    return whole


def leaf(rng):
    kind = rng.choice(["byte"] * 5 + ["odd", "any", "range", "nothing"])
    if kind == "byte":
        return ("range", *[rng.choice(PLAIN)] * 2)
    if kind == "odd":
        return ("range", *[rng.randint(0x20, 0x7E)] * 2)
    if kind == "range":
        return ("range", *sorted(rng.choice(PLAIN + SPECIAL) for _ in "lh"))
    return ("range", 0, 255) if kind == "any" else ("nothing",)


def text(t, rng, level=0):
    """The pattern as bytes. Levels: 0 any pattern, 1 a term, 2 what a postfix may follow."""
    kind = t[0]
    if kind == "nothing":
        return b"~"
    if kind == "range":
        return byte_text(t[1], t[2], rng)
    if kind == "star":
        return text(t[1], rng, 2) + b"*"
    if kind == "charge":
        return text(t[1], rng, 2) + b"#%03d" % t[2]
    if kind == "capture":
        return b"{%d:" % t[2] + text(t[1], rng) + b"}"
    own, bar = (1, b"") if kind == "cat" else (0, b"|")
    whole = text(t[1], rng, own) + bar + text(t[2], rng, own)
    return whole if level <= own else b"(" + whole + b")"


def byte_text(lo, hi, rng):
    if (lo, hi) == (0, 255):
        return b"."
    if lo != hi or rng.random() < 0.1:
        return b"[%c-%c]" % (lo, hi)
    escaped = lo in SPECIAL or rng.random() < 0.1
    return b"\\%c" % lo if escaped else b"%c" % lo


def steps(t):
    own = {"range": 1, "capture": 2}.get(t[0], 0)
    return own + sum(steps(x) for x in t[1:] if isinstance(x, tuple))


def sample(t, rng):
    """A line that the pattern reads, variables aside."""
    kind = t[0]
    if kind == "nothing":
        return b""
    if kind == "range":
        return bytes([rng.choice([t[1], t[2], rng.randint(t[1], t[2])])])
    if kind == "star":
        return b"".join(sample(t[1], rng) for _ in range(rng.choice([0, 1, 1, 2, 3])))
    if kind == "cat":
        return sample(t[1], rng) + sample(t[2], rng)
    return sample(t[rng.randint(1, 2)] if kind == "alt" else t[1], rng)


def lines(t, rng, count, longest):
    """Lines that fit, lines with one byte changed, added or lost, and lines of no design."""
    all_lines = [b""]
    while len(all_lines) < count:
        line = bytearray(sample(t, rng))
        at = rng.randint(0, len(line))
        change = rng.choice(["keep", "keep", "add", "lose", "random"])
        if change == "add":
            line.insert(at, rng.choice(ODD + PLAIN))
        elif change == "lose":
            del line[at : at + 1]
        elif change == "random":
            line = bytes(rng.choice(ODD + PLAIN) for _ in range(rng.randint(1, 5)))
        if b"\n" not in line and len(line) <= longest:
            all_lines.append(bytes(line))
    return all_lines


def cards(rng, count, k, charges, lines_each, longest):
    """`count` times a tree, its text and lines; all within the limits of a card (with so few leaves, nesting too)."""
    while count:
        make = tree if k == 0 or rng.random() < 0.4 else marked_tree
        t = make(rng, rng.randint(1, 14), k, charges)
        pattern = text(t, rng)
        if steps(t) <= MOST_STEPS and len(pattern) <= LONGEST_PATTERN:
            count -= 1
            yield t, pattern, lines(t, rng, lines_each, longest)


def answers(reader, k, pattern, asked):
    """The weight of the best reading of each line, None for no reading."""
    card = b"vars=%d\npattern=%s\n" % (k, pattern)
    run = subprocess.run(shlex.split(reader), input=card + b"".join(x + b"\n" for x in asked), stdout=subprocess.PIPE)
    given = [part.decode().split("\n") for part in run.stdout.split(b"line=")[1:]]
    assert len(given) == len(asked), (pattern, run.stdout)
    found = [part[1] == "answer=found" for part in given]
    assert all(f or part[1] == "answer=none" for f, part in zip(found, given)), (pattern, run.stdout)
    return [int(part[2].removeprefix("weight=")) if f else None for f, part in zip(found, given)]

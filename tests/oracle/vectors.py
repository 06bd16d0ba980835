# The comparison behind vectors.sh: oracle, folder of vectors, perhaps a reader.
import json, pathlib, subprocess, sys

TOO_LARGE = 3


def ask(command, data):
    """What the command writes, or None where the oracle says that it cannot enumerate."""
    run = subprocess.run(command, input=data, stdout=subprocess.PIPE, stderr=subprocess.DEVNULL)
    if run.returncode == TOO_LARGE or run.stdout == b"too large\n":
        return None
    return run.stdout if run.returncode == 0 else b"status %d" % run.returncode


def compiled(answer):
    kind, *rest = answer
    return ",".join(map(str, rest[0])) if kind == "ok" else f"refused {rest[0]} {rest[1]}"


def answered(answer):
    kind, *rest = answer
    if kind == "found" or kind == "reading":
        return f"found {rest[0]} " + ",".join(map(str, rest[1]))
    return " ".join(map(str, answer))


def programs(folder):
    for path in sorted((folder / "reading").glob("*.in")):
        yield path.name, [], path.read_bytes(), path.with_suffix(".out").read_bytes()


def compilings(folder):
    for n, text in enumerate((folder / "tables/compiling.jsonl").open()):
        test = json.loads(text)
        data = bytes.fromhex(test["pattern"])
        yield n, [str(test["K"]), str(test["room"])], data, (compiled(test["answer"]) + "\n").encode()


def readings(folder):
    for n, text in enumerate((folder / "tables/reading.jsonl").open()):
        test = json.loads(text)
        commas = lambda numbers: ",".join(map(str, numbers))
        data = "\n".join([commas(test["table"]), test["line"], commas(test["set"])])
        answer = answered(test["weight_of_set"]) + " | " + answered(test["best_reading"]) + "\n"
        yield n, [], data.encode(), answer.encode()


def compare(title, command, tests):
    cases = large = wrong = 0
    for name, args, data, expected in tests:
        cases += 1
        got = ask(command + args, data)
        if got is None:
            large += 1
        elif got != expected:
            wrong += 1
            print(f"{title} {name}: got {got!r}, expected {expected!r}")
    print(f"{title}: {cases} cases, {large} too large to enumerate, {wrong} differences")
    return wrong


oracle, folder, reader = sys.argv[1], pathlib.Path(sys.argv[2]), sys.argv[3:]
wrong = 0
for way in [[], ["--fast"]]:
    wrong += compare(" ".join(["reading", *way]), [oracle, "reading", *way], programs(folder))
    wrong += compare(" ".join(["compile", *way]), [oracle, "compile", *way], compilings(folder))
    wrong += compare(" ".join(["table", *way]), [oracle, "table", *way], readings(folder))
if reader:
    wrong += compare("reader", reader, programs(folder))
sys.exit(wrong != 0)

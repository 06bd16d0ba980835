# The least stack with which the program `reading` comes through, for some cards and lines:
#   python3 bench/stack.py [PROGRAM]
# PROGRAM is crates/reading/out/reading if none is named. Linux only. What a run needs is found by trying
# limits of the stack, in steps of a page; it includes the C library's and the loader's part.
import pathlib, resource, subprocess, sys

root = pathlib.Path(__file__).resolve().parents[1]
program = sys.argv[1] if len(sys.argv) > 1 else root / "crates/reading/out/reading"
PAGE = 4096


def ends_well(pages, text):
    limit = lambda: resource.setrlimit(resource.RLIMIT_STACK, (pages * PAGE, pages * PAGE))
    # -R: the stack at the same place in every run
    run = subprocess.run(["setarch", "-R", program], input=text, capture_output=True, env={}, preexec_fn=limit)
    return run.returncode == 0


def least(text):
    low, high = 16, 1024
    while low < high:
        middle = (low + high) // 2
        low, high = (low, middle) if ends_well(middle, text) else (middle + 1, high)
    return low * PAGE / 1000


def card(pattern, k=0):
    return b"vars=%d\npattern=%s\n" % (k, pattern)


empty = least(b"")
print(f"{'no card':<40} {empty:>5.0f} KB")
for title, text in [
    ("card ~, no line", card(b"~")),
    ("card ~, an empty line", card(b"~") + b"\n"),
    ("samples/ec.card, a line of 1,024 bytes", (root / "samples/ec.card").read_bytes() + b"x" * 1024 + b"\n"),
    ("card of 100 (", card(b"(" * 100)),
    ("card of 255 (", card(b"(" * 255)),
    ("card of 255 ~", card(b"~" * 255)),
    ("card of ~ and 254 *", card(b"~" + b"*" * 254)),
    ("card of 127 ~| and ~", card(b"~|" * 127 + b"~")),
]:
    kb = least(text)
    print(f"{title:<40} {kb:>5.0f} KB, {kb - empty:>4.0f} more than with no card")

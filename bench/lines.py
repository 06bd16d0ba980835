# Lines on standard input by the pattern of samples/ec.card in Python's `re`, with captures;
# prints what `reading` prints, without the weights. bench/lines.sh runs it.
import re, sys

ec = re.compile(rb".*EC=([.-9][.-9]*) (.S/cm) *(TC|nLF|@25C|).*", re.DOTALL)
out = []
for count, line in enumerate(sys.stdin.buffer, 1):
    match = ec.fullmatch(line.rstrip(b"\n"))
    if match is None:
        out.append(f"line={count}\nanswer=none\n")
    else:
        (a, b), (c, d), (e, f) = match.span(1), match.span(2), match.span(3)
        out.append(f"line={count}\nanswer=found\nv1={a + 1},{b + 1}\nv2={c + 1},{d + 1}\nv3={e + 1},{f + 1}\n")
sys.stdout.write("".join(out))

"""Random files of calls through the program `engrave` and through the model beside this file, whose answers have to be the same.

    python3 tests/random_calls.py [PROGRAM] [LINES] [SEED]

PROGRAM is crates/engrave/out/engrave if none is named, LINES 10,000 in all.
"""
import os
import random
import subprocess
import sys
import tempfile

import model

LENGTHS = [3, 6, 9, 12, 24, 48, 63, 96, 120, 192, 240, 384, 768, 1500]


def event(r):
    length = r.choice(LENGTHS) if r.random() < 0.95 else r.choice([0, 1, 5, 65535, 65532, 65536, 99999])
    if r.random() < 0.2:
        return "silence %d" % length
    octave = r.choice([3, 4, 4, 4, 5]) if r.random() < 0.95 else r.choice([0, 9, 10, 36, 37])
    words = [w for w in model.WORDS]
    alteration = " %s " % r.choice(words) if r.random() < 0.4 else ""
    return "%s%s%d %d" % (r.choice(model.STEPS), alteration, octave, length)


def call(r, voices, counts):
    v = r.randrange(voices) if r.random() < 0.97 else r.choice([voices, 99, 4294967295])
    n = counts.get(v, 0)
    i = r.randint(0, n) if r.random() < 0.95 else n + r.randint(1, 9)
    kind = r.random()
    if kind < 0.45:
        counts[v] = n + 1
        return "put %d %d %s" % (v, i, event(r))
    if kind < 0.55:
        counts[v] = max(0, n - 1)
        return "cut %d %d" % (v, i)
    if kind < 0.65:
        return "change %d %d %s" % (v, i, event(r))
    if kind < 0.83:
        return "show %d %d %d" % (v, r.choice([0, 0, 1, 2, 5, 20, 1000]), r.choice([0, 1, 2, 4, 16, 17]))
    if kind < 0.93:
        a = r.choice([0, 0, 96, 192, 1000, 10000, 4294967295])
        return "heard in %d %d" % (a, min(4294967295, a + r.choice([0, 1, 192, 768, 1536, 1537])))
    return "how long %d" % v


def damaged(r, line):
    at = r.randint(0, len(line))
    return line[:at] + r.choice(["", " ", "x", "0", "\t", line[at:] + " ", "9999999999"]) + line[at + r.randint(0, 1) :]


def script(r, lines):
    voices = r.randint(1, 8)
    out = ["key %d" % r.randint(0, 14), "bar %d" % r.choice([3, 96, 144, 192, 192, 288, 768]), "voices %d" % voices, "events %d" % r.choice([0, 5, 100, 1024])]
    if r.random() < 0.05:
        out[r.randrange(4)] = damaged(r, out[r.randrange(4)])
    counts = {}
    for _ in range(lines):
        line = call(r, voices, counts)
        if r.random() < 0.03:
            line = damaged(r, line)
        out.append(r.choice(["", "; " + line]) if r.random() < 0.02 else line)
    return "\n".join(out) + ("\n" if r.random() < 0.9 else "")


def main():
    root = os.path.dirname(os.path.dirname(os.path.abspath(__file__)))
    program = sys.argv[1] if len(sys.argv) > 1 else os.path.join(root, "crates", "engrave", "out", "engrave")
    lines = int(sys.argv[2]) if len(sys.argv) > 2 else 10000
    seed = int(sys.argv[3]) if len(sys.argv) > 3 else random.randrange(2**32)
    r, done, files = random.Random(seed), 0, 0
    while done < lines:
        text = script(r, r.randint(0, 400)).encode()
        with tempfile.NamedTemporaryFile(delete=False) as f:
            f.write(text)
        got = subprocess.run([program, f.name], capture_output=True)
        want = "".join(x + "\n" for x in model.answers(text)).encode()
        if got.returncode != 0 or got.stdout != want:
            print("seed %d: the answers to %s are not the model's" % (seed, f.name))
            return 1
        os.unlink(f.name)
        done += text.count(b"\n")
        files += 1
    print("seed %d: %d lines in %d files, all answers the same" % (seed, done, files))
    return 0


if __name__ == "__main__":
    sys.exit(main())

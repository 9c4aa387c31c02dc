#!/usr/bin/env python3
"""What the program vectors is to print, worked out from document 01 alone (model.py), by no code of ours.

Run at the root of the repository:

    python3 compare/expected.py < crates/vectors/stdin > crates/vectors/stdout
    python3 compare/expected.py ORACLE < crates/vectors/stdin > /dev/null

The second form also asks the real crate, raft-engine 0.4.2, wherever it can answer; real.py says which lines those are. ORACLE is the
program that runs the crate's unchanged sources, built with overflow checks: a case a line on its standard input, an answer a line. What
does not agree goes to standard error, with exit status 1, and after it a line that counts.
"""
import sys

sys.dont_write_bytecode = True

from lines import DO
from real import ask


def main():
    cases = []
    for text in sys.stdin.read().splitlines():
        kind, *words = text.split(" ")
        if kind in DO:
            cases.append((kind, " ".join([kind, words[0]]), words))
            for out in DO[kind](*words):
                print(out)
    if len(sys.argv) > 1:
        asked, bad = ask(sys.argv[1], cases)
        for text in bad:
            print(text, file=sys.stderr)
        print("asked %d, differ otherwise than listed %d" % (asked, len(bad)), file=sys.stderr)
        sys.exit(1 if bad else 0)


if __name__ == "__main__":
    main()

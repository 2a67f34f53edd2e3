#!/usr/bin/env python3
"""Holds a judge against plain_judge.py on random logs, judged as they are and strictly: both must say the same.

usage: alike.py COUNT JUDGE [WORD ..]      the seeds from 0 to COUNT - 1; the judge's command

A log on which they differ is left as alike-SEED.log. The last line counts; the status is 1 where they differed.
"""
import subprocess
import sys
from pathlib import Path

from plain_judge import said_of
from random_log import log_of


def says(command, data, is_strict):
    """What the judge writes, and its status."""
    words = command + (["--strict"] if is_strict else [])
    done = subprocess.run(words, input=data, stdout=subprocess.PIPE, check=False)
    return done.stdout.decode("ascii", "replace"), done.returncode


def differences(seed, command):
    data, found = log_of(seed), []
    for is_strict in (False, True):
        lines, status = said_of(data, is_strict)
        expected = "".join(line + "\n" for line in lines), status
        said = says(command, data, is_strict)
        if said != expected:
            found.append(f"seed {seed}{', strict' * is_strict}: said {said[1]}\n{said[0]}and not {status}\n{expected[0]}")
    if found:
        Path(f"alike-{seed}.log").write_bytes(data)
    return found


def main(words):
    if len(words) < 2 or not words[0].isdecimal():
        print(__doc__, file=sys.stderr)
        return 2
    differ = 0
    for seed in range(int(words[0])):
        found = differences(seed, words[1:])
        differ += bool(found)
        for text in found:
            print(text)
    print(f"{int(words[0]) - differ} logs judged alike, {differ} not")
    return 1 if differ else 0


if __name__ == "__main__":
    sys.exit(main(sys.argv[1:]))

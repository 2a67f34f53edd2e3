#!/usr/bin/env python3
"""Holds the reader and the printer to their laws: what a log's one spelling is read as is the log again, and spelled again
it is the same text. Of a text that is read, only comments, empty lines, spaces and ends of lines aren't in its spelling.

usage: texts.py [COUNT]      so many random logs besides the stored ones, 200 where no number is given
"""
import sys
from dataclasses import replace
from pathlib import Path

from hal_text import Refused, read, spell
from random_log import log_of

HERE = Path(__file__).resolve().parent


def words_of(data):
    """The words of each line that counts."""
    lines = [line.split() for line in data.decode("latin-1").replace("\r\n", "\n").split("\n")]
    return [words for words in lines if words and not words[0].startswith("#")]


def faults_of(name, data):
    try:
        log = read(data)
    except Refused:
        return []
    text = spell(log).encode("ascii")
    again = read(text)
    if words_of(text) != words_of(data):
        return [f"{name}: its spelling has other words"]
    if spell(again).encode("ascii") != text or without_lines(again) != without_lines(log):
        return [f"{name}: its spelling is another log"]
    return []


def without_lines(log):
    """The log, without where its events stood in the text."""
    return replace(log, events=tuple(replace(event, line=0) for event in log.events))


def texts(count):
    for path in sorted(HERE.parent.rglob("*.log")):
        yield str(path.relative_to(HERE.parent)), path.read_bytes()
    for seed in range(count):
        yield f"random_log.py {seed}", log_of(seed)


def main(words):
    passed = failed = 0
    for name, data in texts(int(words[0]) if words else 200):
        faults = faults_of(name, data)
        failed, passed = failed + bool(faults), passed + (not faults)
        for fault in faults:
            print(fault)
    print(f"texts: {passed} passed, {failed} failed")
    return 1 if failed else 0


if __name__ == "__main__":
    sys.exit(main(sys.argv[1:]))

#!/usr/bin/env python3
"""Holds a judge against worked and recorded logs, each with its report beside it.

rules/RULE.log breaks the rule, and rules/RULE.kept.log is the nearest one that doesn't; both were worked out by hand.
No line of RULE.log can be left out: without it the log doesn't break the rule, or breaks another besides.
recorded/RULE.log was recorded of tools/hal's small camera HAL, which was told to break the rule, or of a script that
does; libcamera/*.log of the HAL of docs/LIBCAMERA.md, reference/*.log of tools/hal's reference HAL.

usage: rules.py [JUDGE WORD ..]      the judge's command; plain_judge.py where none is named
"""
import subprocess
import sys
from pathlib import Path

from hal_text import Refused, read
from plain_judge import RULES, judge, report_lines

WORKED = Path(__file__).resolve().parent / "rules"
RECORDED = Path(__file__).resolve().parent / "recorded"
OTHERS = [Path(__file__).resolve().parent / name for name in ("libcamera", "reference")]
# A breach that can't be alone: what the device accepts against a rule, the framework asked for against another one.
COMPANIONS = {
    "no-configuration": {"unknown-stream"},
    "accepted-before-init": {"init-order"},
    "accepted-init-twice": {"init-twice"},
    "accepted-no-output": {"no-output"},
    "accepted-two-inputs": {"two-inputs"},
    "accepted-no-settings": {"no-settings"},
    "accepted-unknown-stream": {"unknown-stream"},
}


def report_of(data, is_strict, command):
    """What the judge writes of a log."""
    if command:
        words = command + (["--strict"] if is_strict else [])
        return subprocess.run(words, input=data, stdout=subprocess.PIPE, check=False).stdout.decode("ascii")
    try:
        return "".join(line + "\n" for line in report_lines(*judge(*read(data), is_strict=is_strict)))
    except Refused as refused:
        return f"{refused}\n"


def rules_in(report):
    return {line.split()[1] for line in report.splitlines() if line[0].isdigit()}


def unneeded_lines(data, name, is_strict):
    """The lines without which the log says the same: there should be none."""
    lines = data.splitlines(keepends=True)
    found = []
    for place in range(2, len(lines)):
        rest = b"".join(lines[:place] + lines[place + 1:])
        if rules_in(report_of(rest, is_strict, None)) == {name} | COMPANIONS.get(name, set()):
            found.append(place + 1)
    return found


def compare(log, is_strict, command):
    """What the judge says of a log, where that isn't the report beside it."""
    said = report_of(log.read_bytes(), is_strict, command)
    expected = log.with_suffix(".report").read_text(encoding="ascii")
    return [] if said == expected else [f"{log.name}: said\n{said}and not\n{expected}"]


def faults_of(name, is_strict, command):
    """What is wrong with the logs of a rule."""
    faults = compare(RECORDED / f"{name}.log", True, command)
    if rules_in((RECORDED / f"{name}.report").read_text(encoding="ascii")) != {name} | COMPANIONS.get(name, set()):
        faults.append(f"recorded/{name}.report: tells of other rules")
    for kind in ("", ".kept"):
        faults += compare(WORKED / f"{name}{kind}.log", is_strict, command)
        expected = (WORKED / f"{name}{kind}.report").read_text(encoding="ascii")
        allowed = {name} | COMPANIONS.get(name, set()) if not kind else COMPANIONS.get(name, set())
        if not rules_in(expected) <= allowed or (name in rules_in(expected)) != (not kind):
            faults.append(f"{name}{kind}.report: tells of other rules")
    data = (WORKED / f"{name}.log").read_bytes()
    faults += [f"{name}.log: line {line} can be left out" for line in unneeded_lines(data, name, is_strict)]
    return faults


def main(command):
    names = [(name, is_strict) for name, _, is_strict, _ in RULES]
    logs = [log for folder in OTHERS for log in sorted(folder.glob("*.log"))]
    failed = 0
    for faults in [faults_of(name, is_strict, command) for name, is_strict in names] \
            + [compare(log, True, command) for log in logs]:
        failed += bool(faults)
        for fault in faults:
            print(fault)
    for folder in (WORKED, RECORDED):
        if {path.name.split(".")[0] for path in folder.glob("*.log")} != {name for name, _ in names}:
            failed += 1
            print(f"{folder.name}: the logs aren't those of the rules")
    print(f"{len(names) + len(logs) - failed} passed, {failed} failed")
    return 1 if failed else 0


if __name__ == "__main__":
    sys.exit(main(sys.argv[1:]))

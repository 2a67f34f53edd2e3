#!/usr/bin/env python3
"""Holds a judge against logs, each with its report beside it.

NAME.log, NAME.report: what is written of the log; NAME.strict.report: what strict judging writes, where that is another.

  rules/RULE.log, RULE.kept.log     breaks the rule, and the nearest log that doesn't; RULE.CASE.log, RULE.CASE.kept.log:
                                    what else the rule says. Worked out by hand. Where the second version says the
                                    rule as the first one, ../rules has its logs
  times/NAME.log, NAME.kept.log     the same of slow calls
  texts/NAME.log                    what is read, and what is refused with which cause
  runs/correct/NAME.log             whole runs of unusual devices that keep the header's rules
  runs/broken/RULE.NAME.log         whole runs of devices that break the rule
  today/FOLDER.NAME.1.report        what the second judge writes of ../FOLDER/NAME.log where that isn't what stands beside
                                    it; .2.report: of the same log with the first line `hal 2 K`

usage: logs.py [JUDGE WORD ..]      the judge's command; plain_judge.py where none is named
"""
import subprocess
import sys
from pathlib import Path

from plain_judge import RULES, said_of

HERE = Path(__file__).resolve().parent
FOLDERS = ["rules", "times", "texts", "runs/correct", "runs/broken"]
TODAY = ["rules", "recorded", "libcamera", "reference"]
# A breach that can't be alone: what the device accepts or answers against a rule, the framework asked for against another.
COMPANIONS = {
    "no-configuration": {"unknown-stream"},
    "accepted-before-init": {"init-order"},
    "accepted-init-twice": {"init-twice"},
    "accepted-no-output": {"no-output"},
    "accepted-two-inputs": {"two-inputs"},
    "accepted-no-settings": {"no-settings"},
    "accepted-unknown-stream": {"unknown-stream"},
    "refused-sequence": {"init-order"},
}

def report_of(data, is_strict, command):
    """What the judge writes of a log."""
    if command:
        words = command + (["--strict"] if is_strict else [])
        return subprocess.run(words, input=data, stdout=subprocess.PIPE, check=False).stdout.decode("ascii")
    return "".join(line + "\n" for line in said_of(data, is_strict)[0])


def rules_in(report):
    return {line.split()[1] for line in report.splitlines() if line[0].isdigit()}


def differing(name, said, expected):
    return [] if said == expected else [f"{name}: said\n{said}and not\n{expected}"]


def expected_of(log, is_strict):
    strictly = log.with_suffix(".strict.report")
    return (strictly if is_strict and strictly.exists() else log.with_suffix(".report")).read_text("ascii")


def compare(log, command):
    """What the judge says of a log where that isn't the report beside it, as it is and strictly."""
    faults = []
    for is_strict in (False, True):
        name = f"{log.parent.name}/{log.name}{' --strict' * is_strict}"
        faults += differing(name, report_of(log.read_bytes(), is_strict, command), expected_of(log, is_strict))
    return faults


# ---- what the logs of a rule, and the runs, have to be


def unneeded_lines(data, rule):
    """The lines without which the log says the same: there should be none."""
    lines = data.splitlines(keepends=True)
    rests = {place + 1: b"".join(lines[:place] + lines[place + 1:]) for place in range(2, len(lines))}
    return [place for place, rest in rests.items()
            if rules_in(report_of(rest, rule.is_strict, None)) == {rule.name} | COMPANIONS.get(rule.name, set())]


def faults_of_smallest(rule):
    """Of each rule a smallest log breaks it alone: here, or beside today's judge."""
    log = HERE / "rules" / f"{rule.name}.log"
    if not log.exists():
        is_there = (HERE.parent / "rules" / f"{rule.name}.log").exists()
        return [] if is_there else [f"rules/{rule.name}.log: not there"]
    faults = [f"rules/{rule.name}.log: line {line} can be left out" for line in unneeded_lines(log.read_bytes(), rule)]
    if rules_in(expected_of(log, rule.is_strict)) != {rule.name} | COMPANIONS.get(rule.name, set()):
        faults.append(f"rules/{rule.name}.report: tells of other rules")
    return faults + ([] if log.with_suffix(".kept.log").exists() else [f"rules/{rule.name}.kept.log: not there"])


def faults_of_rule(log):
    """It breaks the rule of its name, strictly judged; where it is called kept it doesn't, judged as it is."""
    is_kept = log.name.endswith(".kept.log")
    is_told = log.name.split(".")[0] in rules_in(expected_of(log, not is_kept))
    return [f"rules/{log.name}: breaks the rule or keeps it, against its name"] if is_told == is_kept else []


def faults_of_run(log):
    """A correct device's run tells of nothing of the device; a broken one's is told by the rule of its name."""
    told = [line.split() for line in expected_of(log, True).splitlines() if line[0].isdigit()]
    if log.parent.name == "correct":
        is_accused = any(words[2] == "device" for words in told)
        return [f"{log.name}: a correct device is accused"] if is_accused else []
    is_told = log.name.split(".")[0] in [words[1] for words in told]
    return [] if is_told else [f"{log.name}: isn't told by the rule of its name"]


# ---- today's logs, in both readings


def compare_today(log, command):
    """Of today's worked logs those of the strict rules are judged strictly, of the recorded ones all."""
    folder = log.parent.name
    is_strict = folder != "rules" or any(rule.is_strict and rule.name == log.name.split(".")[0] for rule in RULES)
    data, faults = log.read_bytes(), []
    for version, text in (("1", data), ("2", data.replace(b"hal 1 ", b"hal 2 ", 1))):
        own = HERE / "today" / f"{folder}.{log.stem}.{version}.report"
        expected = (own if own.exists() else log.with_suffix(".report")).read_text("ascii")
        faults += differing(f"../{folder}/{log.name} as hal {version}", report_of(text, is_strict, command), expected)
    return faults


def checks(command):
    """What is wrong with each thing that is looked at."""
    besides = {"rules": faults_of_rule, "runs/correct": faults_of_run, "runs/broken": faults_of_run}
    for folder in FOLDERS:
        for log in sorted((HERE / folder).glob("*.log")):
            yield compare(log, command) + besides.get(folder, lambda _: [])(log)
    for rule in RULES:
        yield faults_of_smallest(rule)
    for folder in TODAY:
        for log in sorted((HERE.parent / folder).glob("*.log")):
            yield compare_today(log, command)


def main(command):
    passed = failed = 0
    for faults in checks(command):
        failed, passed = failed + bool(faults), passed + (not faults)
        for fault in faults:
            print(fault)
    names = {log.name.split(".")[0] for log in (HERE / "rules").glob("*.log")}
    unknown = names - {rule.name for rule in RULES}
    if unknown:
        failed += 1
        print(f"rules: no rule has the name {', '.join(sorted(unknown))}")
    print(f"{passed} passed, {failed} failed")
    return 1 if failed else 0


if __name__ == "__main__":
    sys.exit(main(sys.argv[1:]))

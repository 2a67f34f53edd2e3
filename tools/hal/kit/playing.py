"""Plays a script on a camera HAL by hal_drive, in a process of its own, and has its log judged."""
import re
import shlex
import subprocess
import time
from dataclasses import dataclass, field
from pathlib import Path
from typing import Optional

from questions import exercised_in, plain_judge
from scripts import Script

PLAYED, GAVE_UP, NOT_LOADED, CRASHED, HUNG = range(5)  # the driver's statuses
BREACH = re.compile(r"(\d+) (\S+) (framework|device) (\S+) (\S+)")


@dataclass(frozen=True)
class Bench:
    """What scripts are played on, and how they are judged. judge: the words of a command, or none for plain_judge.py."""
    drive: Path
    hal: Path
    folder: Path
    judge: tuple = ()
    is_strict: bool = False
    driver_words: tuple = ()


@dataclass(frozen=True)
class Breach:
    line: int
    rule: str
    side: str
    frame: Optional[int]
    stream: Optional[int]


@dataclass
class Outcome:
    """A played script. status: the driver's; report: the judge's lines, None where it couldn't be asked."""
    script: Script
    status: int
    seconds: float
    log: Path
    said: str
    report: Optional[list] = None
    breaches: list = field(default_factory=list)
    left: list = field(default_factory=list)
    exercised: dict = field(default_factory=dict)
    not_possible: list = field(default_factory=list)

    def of(self, side):
        return [breach for breach in self.breaches if breach.side == side]

    @property
    def is_judged(self):
        return self.report is not None and not any(line.startswith("refused") for line in self.report)

    def has_line(self, text):
        return any(line == text or line.startswith(text + " ") for line in self.log_lines())

    def log_lines(self):
        return self.log.read_text(encoding="ascii", errors="replace").splitlines() if self.log.exists() else []


def ask(judge, data, is_strict):
    """The judge's lines; None where it can't be asked."""
    if not judge:
        return plain_judge.said_of(data, is_strict)[0]
    words = list(judge) + (["--strict"] if is_strict else [])
    try:
        said = subprocess.run(words, input=data, stdout=subprocess.PIPE, stderr=subprocess.DEVNULL, check=False)
    except OSError:
        return None
    return said.stdout.decode("ascii", "replace").splitlines() if said.returncode in (0, 1) else None


def number_or_none(word):
    return None if word == "-" else int(word)


def read_report(outcome):
    """The breaches and the open requests of the judge's lines; without any where a line has another shape."""
    for line in outcome.report:
        match = BREACH.fullmatch(line)
        if match:
            line_number, rule, side, frame, stream = match.groups()
            outcome.breaches.append(Breach(int(line_number), rule, side, number_or_none(frame), number_or_none(stream)))
        elif line.startswith("open "):
            outcome.left = [int(word) for word in line.split()[1:]]
        elif not line.startswith(("first ", "refused ")):
            outcome.report = None
            return


def run_driver(bench, script, log):
    """The driver's status, what it said, and how long it took. A signal that ended it is a crash."""
    words = [str(bench.drive), *bench.driver_words, str(bench.hal), str(script.path), str(log)]
    start = time.monotonic()
    done = subprocess.run(words, stdin=subprocess.DEVNULL, stdout=subprocess.PIPE, stderr=subprocess.STDOUT, check=False)
    status = done.returncode if 0 <= done.returncode <= HUNG else CRASHED
    return status, done.stdout.decode("utf-8", "replace"), time.monotonic() - start


def play(bench, script):
    """Plays the script; its log, report and what the driver said stay in the folder."""
    log = bench.folder / f"{script.name}.log"
    status, said, seconds = run_driver(bench, script, log)
    outcome = Outcome(script, status, seconds, log, said)
    if said:
        (bench.folder / f"{script.name}.said").write_text(said, encoding="utf-8")
    if not log.exists():
        return outcome
    data = log.read_bytes()
    outcome.report = ask(bench.judge, data, bench.is_strict)
    if outcome.report is not None:
        (bench.folder / f"{script.name}.report").write_text("".join(line + "\n" for line in outcome.report), "ascii")
        read_report(outcome)
    outcome.exercised = exercised_in(data)
    mark = "# not possible: "
    outcome.not_possible = [line[len(mark):] for line in outcome.log_lines() if line.startswith(mark)]
    return outcome


def judge_of(command):
    """The words of the judge's command; none: plain_judge.py, in this process."""
    return tuple(shlex.split(command)) if command else ()

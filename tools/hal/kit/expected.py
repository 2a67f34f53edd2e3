"""Known failures: a file that names, for scripts, what is expected to go wrong in them, with a reason each.

    # SCRIPT RULE|VERDICT REASON
    07-settings   accepted-dead   templates that the camera lacks are answered by NULL
    31-*          keeps-requests  ticket 4711

A verdict is written in small letters with `-` between its words, without apostrophe: keeps-requests, not-exercised,
cant-be-opened. SCRIPT may have `*`. A script whose failures are all expected counts as passed; each expected failure that
doesn't come is told.
"""
from dataclasses import dataclass
from fnmatch import fnmatchcase

from verdicts import failures_of


@dataclass(frozen=True)
class Expectation:
    script: str
    failure: str
    reason: str


class BadExpectation(Exception):
    """A line that has none of the forms."""


def read_expectations(path):
    found = []
    for number, line in enumerate(path.read_text(encoding="utf-8").splitlines(), start=1):
        words = line.split(maxsplit=2)
        if not words or words[0].startswith("#"):
            continue
        if len(words) < 3:
            raise BadExpectation(f"{path}:{number}: SCRIPT RULE|VERDICT REASON is wanted, with a reason")
        found.append(Expectation(*words))
    return found


@dataclass(frozen=True)
class Result:
    """A played script with its verdict: which of its failures were expected, and which expectations weren't met."""
    outcome: object
    verdict: object
    unexpected: tuple
    expected: tuple
    unmet: tuple

    @property
    def is_good(self):
        return not self.unexpected

    @property
    def reasons(self):
        return "; ".join(f"{e.failure}: {e.reason}" for e in self.expected)

    def __str__(self):
        if self.verdict.is_good:
            return str(self.verdict)
        return f"expected: {self.verdict.word}" if self.is_good else str(self.verdict)


def hold_against(outcome, verdict, expectations):
    failures = failures_of(outcome, verdict)
    concerned = [e for e in expectations if fnmatchcase(outcome.script.name, e.script)]
    expected = tuple(e for e in concerned if e.failure in failures)
    named = {e.failure for e in expected}
    return Result(outcome, verdict, tuple(f for f in failures if f not in named), expected,
                  tuple(e for e in concerned if e.failure not in failures))

"""What is said of a played script: its verdict, and why."""
from dataclasses import dataclass

from playing import CRASHED, GAVE_UP, HUNG, NOT_LOADED

KEEPS = "keeps the rules"
BREAKS = "breaks the rules"
NOT_EXERCISED = "not exercised"
NOT_OPENED = "can't be opened"
NOT_INITIALIZED = "can't be initialized"
NOT_CONFIGURED = "can't be configured"
KEEPS_REQUESTS = "keeps requests"
CRASHES = "crashed"
HANGS = "hangs"
OWN_FAULT = "the kit's own fault"
NOT_PLAYED = "not played"
NOT_JUDGED = "not judged"
OF_THE_KIT = (OWN_FAULT, NOT_PLAYED, NOT_JUDGED)  # they say nothing of the camera


@dataclass(frozen=True)
class Verdict:
    word: str
    why: str = ""

    @property
    def is_good(self):
        return self.word == KEEPS

    def __str__(self):
        return self.word + (f": {self.why}" if self.why else "")


def never_ready(outcome):
    """The camera can't be opened, initialized or configured at all, or None. A configuration counts behind an init."""
    lines = [line for line in outcome.log_lines() if line and not line.startswith("#")]
    ready = next((place for place, line in enumerate(lines) if line == "init end ok"), len(lines))
    for word, call, part in ((NOT_OPENED, "open", lines), (NOT_INITIALIZED, "init", lines),
                             (NOT_CONFIGURED, "configure", lines[ready:])):
        refusals = [line for line in part if line.startswith(f"{call} end error")]
        if refusals and not any(line.startswith(f"{call} end ok") for line in part):
            return Verdict(word, refusals[0].split()[-1])
    return None


def first_unmeant(outcome):
    """The first breach of the framework that the script doesn't name, if it comes before any of the device."""
    unmeant = [b for b in outcome.breaches if b.side == "device" or b.rule not in outcome.script.breaks]
    return unmeant[0] if unmeant and unmeant[0].side == "framework" else None


def missing(outcome):
    """The rules that the script must exercise and that it didn't."""
    return [rule for rule in outcome.script.exercises if not outcome.exercised.get(rule)]


def why_missing(outcome):
    """The step that wasn't possible, and what wasn't exercised for that."""
    step = outcome.not_possible[0] if outcome.not_possible else "each step was possible, and the camera told nothing of it"
    return f"{step} ({', '.join(missing(outcome))})"


def end_verdict(outcome):
    """Where the process didn't end as it should, or None."""
    if outcome.status == NOT_LOADED:
        return Verdict(NOT_PLAYED, outcome.said.strip().splitlines()[-1] if outcome.said.strip() else "")
    meant = "after the framework broke a rule" if outcome.script.breaks else ""
    if outcome.status == HUNG:
        return Verdict(HANGS, meant)
    return Verdict(CRASHES, meant) if outcome.status == CRASHED else None


def verdict_of(outcome):
    ended = end_verdict(outcome)
    if ended:
        return ended
    if not outcome.is_judged:
        return Verdict(NOT_JUDGED)
    if outcome.of("device"):
        unmeant = first_unmeant(outcome)
        return Verdict(OWN_FAULT, unmeant.rule) if unmeant and not never_ready(outcome) else Verdict(BREAKS)
    unready = never_ready(outcome)
    if unready:
        return unready
    if first_unmeant(outcome):
        return Verdict(OWN_FAULT, first_unmeant(outcome).rule)
    if outcome.status == GAVE_UP:
        return Verdict(KEEPS_REQUESTS, outcome.not_possible[-1] if outcome.not_possible else "")
    if missing(outcome):
        return Verdict(NOT_EXERCISED, why_missing(outcome))
    return Verdict(KEEPS)


def code_of(word):
    """A verdict's word as an expectation writes it."""
    return word.replace("'", "").replace(" ", "-")


def failures_of(outcome, verdict):
    """All that went wrong: the rules that the device broke, each once, and what a verdict says besides."""
    if verdict.is_good:
        return []
    if verdict.word != BREAKS:
        return [code_of(verdict.word)]
    failures = list(dict.fromkeys(breach.rule for breach in outcome.of("device")))
    if outcome.status == GAVE_UP:
        failures.append(code_of(KEEPS_REQUESTS))
    return failures + ([code_of(NOT_EXERCISED)] if missing(outcome) else [])

#!/usr/bin/env python3
"""Tests the questions of questions.py: each rule has one; each event that breaks a rule exercises it, on all logs of
tests/hal and on random ones; a nearest log that keeps a rule exercises it, but where the question can't arise any more.

usage: questions_test.py [COUNT]     so many random logs, 30 where no number is given
"""
import sys

from pathlib import Path

from questions import QUESTIONS, exercised_in, exercises, plain_judge, read, sides
from hal_text import Refused
import random_log

LOGS = Path(plain_judge.__file__).resolve().parent
# The nearest log that keeps these rules has no event at which the question arises: what it has instead took it away.
TAKEN_AWAY = {
    "accepted-dead", "buffer-order", "callback-after-close", "callback-after-failure", "error-beside-request-error",
    "failed-buffer-order", "failed-with-frames", "flush-left", "metadata-after-request-error", "refused-after-callback",
    "refused-request",
}

# A log with its counts, worked out by hand: two requests of a stream, the second of which fails in a flush; a third
# that is refused; and a close.
WORKED = b"""hal 1 2
open begin
open end ok
init begin
init end ok
configure begin 0:YUVx640x480
configure end ok 0:2
request 0 begin settings 0:b0:-
request 0 end ok
shutter 0 5
result 0 partial 1 metadata
request 1 begin same 0:b1:7
request 1 end ok
result 0 partial 2 metadata 0:b0:ok:-
flush begin
error 1 request
result 1 partial 0 none 0:b1:error:7
flush end ok
request 2 begin same 0:b0:- nohandle
request 2 end error EINVAL
close begin
close end
"""
EXPECTED = {
    "init-order": 5, "init-twice": 1, "no-configuration": 3, "no-output": 4, "no-settings": 2, "overlapping-calls": 5,
    "call-after-close": 7, "frame-number": 2, "held-buffer": 1, "too-many-buffers": 3, "unknown-stream": 3,
    "no-max-buffers": 1, "refused-request": 2, "refused-after-callback": 1, "unknown-frame": 5,
    "callback-after-close": 1, "shutter-twice": 1, "shutter-after-request-error": 1, "empty-result": 3,
    "partial-number": 3, "partial-twice": 2, "metadata-after-request-error": 1, "not-at-device": 2, "buffer-status": 2,
    "good-after-error": 1, "acquire-fence": 2, "release-fence": 1, "error-twice": 1, "error-beside-request-error": 1,
    "request-error-late": 1, "flush-left": 1, "close-left": 1, "failed-without-notice": 1, "no-shutter": 1,
}


def counted(data):
    """How often each rule is exercised, without those that aren't."""
    return {name: times for name, times in exercised_in(data).items() if times}


def unasked_breaches(data):
    """The breaches at an event that doesn't exercise the rule: there should be none."""
    try:
        count, events = read(data)
    except Refused:
        return []
    asked = {event.line: names for event, names in exercises(count, events)}
    return [entry for entry in plain_judge.judge(count, events, is_strict=True)[0]
            if entry[1] not in asked.get(entry[0], [])]


def asks_in(name, data):
    return any(name in names for _, names in exercises(*read(data)))


def main(words):
    faults = []
    if set(QUESTIONS) != set(sides()):
        faults.append(f"rules without a question, or the other way: {set(QUESTIONS) ^ set(sides())}")
    logs = sorted(LOGS.glob("*/*.log"))
    for log in logs:
        faults += [f"{log.name}: {entry}" for entry in unasked_breaches(log.read_bytes())]
    for name in QUESTIONS:
        if asks_in(name, (LOGS / "rules" / f"{name}.kept.log").read_bytes()) != (name not in TAKEN_AWAY):
            faults.append(f"{name}.kept.log: whether it exercises the rule is another than was worked out")
    if counted(WORKED) != EXPECTED:
        faults.append(f"the worked log: {set(counted(WORKED).items()) ^ set(EXPECTED.items())}")
    count = int(words[0]) if words else 30
    for seed in range(1, count + 1):
        faults += [f"random log {seed}: {entry}" for entry in unasked_breaches(random_log.log_of(seed))]
    for fault in faults:
        print(fault)
    print(f"{len(logs)} stored and {count} random logs: {len(faults)} faults")
    return 1 if faults else 0


if __name__ == "__main__":
    sys.exit(main(sys.argv[1:]))

#!/usr/bin/env python3
"""Less than before: what the second version's judge tells of logs of the first version, held against today's judge.

Where no two calls of a kind (requests: of a number) are in call at once, none is over an `open end ok`, no number is begun
again while its request is live, and no configuration has a mode, the report has no entry that it hadn't before. And each
entry that is gone is of a rule that the second version made to say less, in a log that has what it says less of.

usage: less.py [COUNT]      so many random logs besides today's logs, 100 where no number is given
"""
import importlib
import sys
from pathlib import Path

import plain_judge as second
import random_log
from hal_text import Refused, UNKNOWN
from hal_words import inputs_in

HERE = Path(__file__).resolve().parent
MODULES = ("hal_text", "hal_words", "plain_judge", "random_log")


def load_first():
    """Today's judge and its random logs, whose modules have the names of ours."""
    ours = {name: sys.modules.pop(name) for name in MODULES}
    sys.path.insert(0, str(HERE.parent))
    judge, logs = importlib.import_module("plain_judge"), importlib.import_module("random_log")
    sys.path.pop(0)
    for name in MODULES:
        sys.modules.pop(name, None)
    sys.modules.update(ours)
    return judge, logs


first, first_logs = load_first()
STRICT = {name for name, _, is_strict, _ in first.RULES if is_strict}


# ---- what a log has


def calls_at_once(log):
    """Two calls of a kind (requests: of a number) are in call at once, or one is over an `open end ok`."""
    begun = {}
    for event in log.events:
        name = event.kind, event.frame
        if event.is_begin:
            begun[name] = begun.get(name, 0) + 1
        elif event.is_end:
            begun[name] -= 1
        is_open = (event.kind, event.stage) == ("open", "ok")
        if begun.get(name, 0) > 1 or (is_open and any(begun.values())):
            return True
    return False


def asks_at_once(log):
    """Two calls of requests or configures are in call at once."""
    in_call = 0
    for event in log.events:
        if event.kind in ("request", "configure"):
            in_call += 1 if event.is_begin else -1
        if in_call > 1:
            return True
    return False


def begun_again(log):
    """A number, also one whose request isn't live any more."""
    numbers = [event.frame for event in log.events if event.kind == "request" and event.is_begin]
    return len(numbers) != len(set(numbers))


def has_modes(log):
    return any(event.mode for event in log.events)


def has_inputs(log):
    return any(inputs_in(event.streams) for event in log.events)


def has_failure(log):
    return any(event.kind == "error-device" or event.error == "ENODEV" or event.stage == "null" for event in log.events)


def has_init(log):
    return any(event.kind == "init" for event in log.events)


def has_request_errors(log):
    return any(event.kind == "error-request" for event in log.events)


def has_one_part(log):
    return log.count == 1


def has_more_parts(log):
    return log.count > 1


def repeats_streams(log):
    return any(len(event.targets) != len({target.stream for target in event.targets}) for event in log.events)


def brings_again(log):
    """A buffer is a target more than once."""
    brought = [target.buffer for event in log.events for target in event.targets]
    return len(brought) != len(set(brought))


def has_unknown_fences(log):
    return any(returned.release == UNKNOWN for event in log.events for returned in event.buffers)


def names_others(log):
    """A result names a buffer that is no target of its request."""
    brought = {(event.frame, target.buffer) for event in log.events for target in event.targets}
    return any((event.frame, returned.buffer) not in brought for event in log.events for returned in event.buffers)


# Why an entry of a rule may be gone: what the log has then. Calls at once, or a number begun again, may take any entry.
REASONS = {
    "configure-in-flight": [has_modes, has_failure],
    "held-buffer": [brings_again],
    "too-many-buffers": [brings_again, names_others],
    "accepted-before-init": [has_init],
    "accepted-dead": [has_failure],
    "accepted-no-settings": [asks_at_once],
    "accepted-unknown-stream": [asks_at_once],
    "refused-request": [has_modes, has_inputs],
    "unknown-frame": [has_failure],
    "failed-with-frames": [has_modes],
    "shutter-after-request-error": [has_request_errors],
    "partial-number": [has_one_part],
    "metadata-order": [has_modes, has_inputs, asks_at_once],
    "buffer-order": [has_modes, has_inputs, asks_at_once],
    "failed-buffer-order": [has_modes, has_inputs, asks_at_once],
    "good-after-error": [repeats_streams],
    "release-fence": [has_unknown_fences, names_others],
    "error-twice": [has_more_parts, repeats_streams],
    "error-for-good-buffer": [repeats_streams],
    "flush-left": [has_modes],
    "close-left": [has_modes],
    "failed-without-notice": [has_modes],
    "no-shutter": [has_modes],
}


def is_listed(name, log):
    return calls_at_once(log) or begun_again(log) or any(reason(log) for reason in REASONS.get(name, []))


def compare(name, data):
    """What is wrong with what both judges say of a log of the first version."""
    try:
        count, events = first.read(data)
    except first.Refused:
        return [], False
    try:
        log = second.read(data)
    except Refused as refused:
        return ([] if refused.cause == 43 else [f"{name}: {refused}, and today's judge reads it"]), False
    faults = []
    strictly = first.judge(count, events, is_strict=True)[0]
    for is_strict in (False, True):
        before = {entry for entry in strictly if is_strict or entry[1] not in STRICT}
        now = set(second.judge(log, is_strict=is_strict).report)
        if not (calls_at_once(log) or begun_again(log) or has_modes(log)):
            faults += [f"{name}: new {entry}" for entry in sorted(now - before, key=str)]
        faults += [f"{name}: gone, and why isn't listed: {entry}" for entry in sorted(before - now, key=str)
                   if not is_listed(entry[1], log)]
    return faults, True


def logs(count):
    for folder in ("rules", "recorded", "libcamera", "reference"):
        for path in sorted((HERE.parent / folder).glob("*.log")):
            yield f"{folder}/{path.name}", path.read_bytes()
    for seed in range(count):
        yield f"random_log.py {seed} of the first version", random_log.log_of(seed, version=1)
        yield f"../random_log.py {seed}", first_logs.log_of(seed)


def main(words):
    count = int(words[0]) if words else 100
    passed = failed = 0
    for name, data in logs(count):
        faults, is_judged = compare(name, data)
        failed += bool(faults)
        passed += is_judged and not faults
        for fault in faults:
            print(fault)
    print(f"less than before: {passed} passed, {failed} failed")
    return 1 if failed else 0


if __name__ == "__main__":
    sys.exit(main(sys.argv[1:]))

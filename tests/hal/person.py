#!/usr/bin/env python3
"""The report of a hal log for a person, by docs/FORMATS.md, written a second time: made to be read, and slow.

usage: person.py [--strict] < LOG                   writes the report
       person.py COUNT PROGRAM WORD ..              holds the program against rules/*.person and recorded logs' reports,
                                                    and against this report on the random logs from 0 to COUNT - 1

The breaches are those of plain_judge.py; sentences are read from docs/YOUR-CAMERAS-LOG.md, names and sections of the
header from hal_model's table. The last line counts; the status is 1 where something differs.
"""
import re
import subprocess
import sys
from pathlib import Path

from hal_text import Refused, lines_of, read
from hal_words import gives_something_good
from plain_judge import RULES, judge
from random_log import log_of

HERE = Path(__file__).resolve().parent
ROOT = HERE.parents[1]
TOLD = 100
CAUSES = {
    41: "no line counts, and the first one that does is to be hal 1 K",
    42: "a number isn't in its one spelling, or is out of its range",
    43: "the line is none of a hal log, or ends a call that never began",
    45: "the text has more than 134,217,728 bytes",
}


def sentences():
    page = (ROOT / "docs/YOUR-CAMERAS-LOG.md").read_text(encoding="utf-8")
    table = page[page.index("| rule | broken where |"):]
    return {name: said.replace("`", "") for name, said in re.findall(r"^\| `([a-z-]+)` \| (.*) \|$", table, re.M)}


def sections():
    source = (ROOT / "crates/hal_model/specs/Names.antt").read_text(encoding="utf-8")
    names = dict(re.findall(r'^rule_name (\w+) = codes "(.*)"$', source, re.M))
    return {names[case]: said for case, said in re.findall(r'^section_of (\w+) = codes "(.*)"$', source, re.M)}


SENTENCES, SECTIONS = sentences(), sections()


def is_call(event, kind, *stages):
    return event.kind == kind and (not stages or event.stage in stages)


def is_dying(event):
    return event.kind == "error-device" or event.error == "ENODEV" and event.kind != "open" \
        or is_call(event, "template", "null") and 1 <= event.template <= 6


def gives(event, stream, *statuses):
    return event.kind == "result" and any(each.stream == stream and (not statuses or each.status in statuses)
                                          for each in event.buffers)


class Report:
    """The report of a log."""

    def __init__(self, data, is_strict):
        count, self.events = read(data)
        self.report, self.left = judge(count, self.events, is_strict=is_strict)
        words = [line.decode("ascii").split() for line in lines_of(data)]
        self.text = {event.line: " ".join(words[event.line - 1]) for event in self.events}
        self.place = {event.line: place for place, event in enumerate(self.events)}

    def seen(self, event):
        return f"line {event.line}: {self.text[event.line]}"

    def newest(self, place, is_meant, is_limit=lambda event: False):
        """The newest event before the place that is meant, back to the session's begin or another limit."""
        for event in reversed(self.events[:place]):
            if is_meant(event):
                return event
            if is_call(event, "open", "ok") or is_limit(event):
                return None
        return None

    def begin(self, place, frame):
        return self.newest(place, lambda it: is_call(it, "request", "begin") and it.frame == frame)

    def call(self, place, event):
        """The begin of the call that ends there."""
        is_told = event.stage in ("ok", "end") and event.kind != "open" or is_call(event, "request", "error")
        if not is_told:
            return None
        if event.kind == "request":
            return self.begin(place, event.frame)
        return self.newest(place, lambda it: is_call(it, event.kind, "begin"))

    def about(self, frame, stream, begin):
        words = ([f"frame {frame}"] if frame is not None else []) + ([f"stream {stream}"] if stream is not None else [])
        if not words:
            return []
        return ["    " + ", ".join(words + ([f"since {self.seen(begin)}"] if begin else []))]

    def in_session(self, name, event, frame, stream, place):
        """What the rule names in the session, if it names something there; and whether it does."""
        last = lambda is_meant, is_limit=lambda it: False: (self.newest(place, is_meant, is_limit), True)
        configured = lambda it: is_call(it, "configure", "ok")
        work = lambda it: it.kind in ("request", "configure")
        if name == "init-twice":
            return last(lambda it: is_call(it, "init", "begin"))
        if name in ("no-settings", "too-many-buffers", "unknown-stream", "accepted-no-settings",
                    "accepted-unknown-stream"):
            return last(configured)
        if name == "overlapping-calls" and event.kind == "close":
            return last(lambda it: it.is_begin, lambda it: it.is_end)
        if name == "overlapping-calls":
            return last(lambda it: work(it) and it.is_begin, lambda it: work(it) and it.is_end)
        if name == "call-after-close":
            return last(lambda it: is_call(it, "close", "begin"))
        if name == "frame-number":
            return last(lambda it: is_call(it, "request", "ok") and it.frame >= frame)
        if name == "held-buffer":
            buffer = next(each.buffer for each in event.targets if each.stream == stream)
            if sum(each.buffer == buffer for each in event.targets) > 1:
                return None, True
            return last(lambda it: is_call(it, "request", "begin") and buffer in [each.buffer for each in it.targets])
        if name == "accepted-init-twice":
            return last(lambda it: is_call(it, "init", "ok"))
        if name == "accepted-dead":
            return last(is_dying)
        if name == "callback-after-close":
            return last(lambda it: is_call(it, "close", "end"))
        if name == "callback-after-failure":
            return last(lambda it: it.kind == "error-device")
        return None, False

    def of_request(self, name, event, frame, stream):
        """What the rule names since the request begins: a test of events; None where it names nothing."""
        own = lambda it: it.frame == frame
        above = lambda it: it.frame is not None and it.frame > frame
        failed = lambda it: it.kind == "error-request" and own(it)
        errs = lambda it: it.kind in ("error-result", "error-buffer") and own(it)
        good = lambda it: own(it) and gives_something_good(it)
        part = lambda it: it.kind == "result" and it.pack == "metadata" and it.partial == event.partial
        return {
            "refused-after-callback": lambda it: own(it) and it.is_callback,
            "unknown-frame": lambda it: own(it) and not it.is_begin,
            "shutter-twice": lambda it: own(it) and it.kind == "shutter",
            "shutter-after-request-error": failed,
            "partial-twice": lambda it: own(it) and part(it),
            "metadata-after-request-error": failed,
            "metadata-order": lambda it: above(it) and part(it),
            "not-at-device": lambda it: own(it) and gives(it, stream),
            "buffer-order": lambda it: above(it) and gives(it, stream, "ok"),
            "failed-buffer-order": lambda it: above(it) and gives(it, stream),
            "good-after-error": lambda it: failed(it) or own(it) and it.kind == "error-buffer" and it.stream == stream,
            "error-twice": lambda it: own(it) and it.kind == event.kind and it.stream == event.stream,
            "error-beside-request-error": failed,
            "request-error-late": lambda it: good(it) or errs(it),
            "error-for-good-buffer": lambda it: own(it) and gives(it, stream, "ok"),
            "failed-without-notice": lambda it: own(it) and gives(it, stream, "error"),
            "no-shutter": good,
        }.get(name)

    def refers(self, name, event, frame, stream, place):
        found, is_named = self.in_session(name, event, frame, stream, place)
        is_meant = None if is_named or frame is None else self.of_request(name, event, frame, stream)
        if is_meant:
            found = self.newest(place, is_meant, lambda it: is_call(it, "request", "begin") and it.frame == frame)
        return [f"      see {self.seen(found)}"] if found else []

    def breaches(self):
        lines, last = [], (None, None)
        for line, name, side, frame, stream in self.report[:TOLD]:
            place = self.place[line]
            event = self.events[place]
            if line != last[0]:
                begin = self.call(place, event)
                lines += [self.seen(event)] + ([f"  since {self.seen(begin)}"] if begin else [])
            if (line, name) != last:
                lines.append(f"  {name} ({side}; camera3.h: {SECTIONS[name]}): {SENTENCES[name]}")
            last = line, name
            begin = None if frame is None or event.kind == "request" else self.begin(place, frame)
            lines += self.about(frame, stream, begin) + self.refers(name, event, frame, stream, place)
        return lines + more(len(self.report))

    def open(self):
        if not self.left:
            return []
        return ["open at the end of the log:"] + [line for frame in self.left[:TOLD] for line in self.about(
            frame, None, self.begin(len(self.events), frame))] + more(len(self.left))

    def sum(self):
        requests = counted(sum(is_call(event, "request", "ok") for event in self.events), "request", "requests")
        if not self.report:
            return f"{requests}, no breach"
        first = self.report[0][2]
        sides = [self.side(first), self.side({"device": "framework", "framework": "device"}[first])]
        return f"{requests}, {', '.join(sides)}; the first is the {first}'s"

    def side(self, side):
        names = [name for _, name, whom, _, _ in self.report if whom == side]
        if not names:
            return f"none by the {side}"
        return f"{counted(len(names), 'breach', 'breaches')} by the {side} ({', '.join(dict.fromkeys(names))})"

    def lines(self):
        return self.breaches() + self.open() + [self.sum()]


def more(count):
    return [f"and {count - TOLD} more, which hal --plain lists"] if count > TOLD else []


def counted(count, one, many):
    return f"{count} {one if count == 1 else many}"


def said_of(data, is_strict):
    """What is written of a log, and the status."""
    try:
        report = Report(data, is_strict)
    except Refused as refused:
        return f"{refused}: {CAUSES[refused.cause]}\n", 1
    return "".join(line + "\n" for line in report.lines()), 1 if report.report else 0


def difference(name, data, is_strict, expected, command):
    """What the program says of a log, where that isn't what is expected."""
    ran = subprocess.run(command + ["--strict"] * is_strict, input=data, stdout=subprocess.PIPE, check=False)
    said = ran.stdout.decode("ascii", "replace"), ran.returncode
    return [] if said == expected else [f"{name}: said {said[1]}\n{said[0]}and not {expected[1]}\n{expected[0]}"]


def check(count, command):
    is_strict = {name: strict for name, _, strict, _ in RULES}
    cases = []
    for path in sorted(HERE.glob("*/*.person")):
        data, text = path.with_suffix(".log").read_bytes(), path.read_text(encoding="ascii")
        strict = path.parent.name != "rules" or is_strict[path.stem]
        cases.append((path.name, data, strict, (text, 0 if text.endswith("no breach\n") else 1)))
    for seed in range(count):
        for strict in (False, True):
            cases.append((f"seed {seed}", log_of(seed), strict, said_of(log_of(seed), strict)))
    failed = 0
    for case in cases:
        found = difference(*case, command)
        failed += bool(found)
        print("".join(found), end="")
    if {path.stem for path in (HERE / "rules").glob("*.person")} != set(is_strict):
        failed += 1
        print("rules: the reports for a person aren't those of the rules")
    print(f"{len(cases) - failed} passed, {failed} failed")
    return 1 if failed else 0


if __name__ == "__main__":
    if sys.argv[1:2] and sys.argv[1].isdecimal():
        sys.exit(check(int(sys.argv[1]), sys.argv[2:]))
    written, status = said_of(sys.stdin.buffer.read(), "--strict" in sys.argv[1:])
    sys.stdout.write(written)
    sys.exit(status)

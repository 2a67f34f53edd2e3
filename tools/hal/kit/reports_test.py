#!/usr/bin/env python3
"""Looks at the reports of a run in which 01-one-stream breaks a rule, 02-two-streams breaks the same as expected, 40- and
so on keep the rules: counts of the JUnit file, elements of the page that end, no part from outside, all lines of logs.

usage: reports_test.py JUNIT HTML FOLDER      FOLDER: the run's logs
"""
import sys
import xml.etree.ElementTree as tree
from html.parser import HTMLParser
from pathlib import Path

VOID = {"meta", "input", "img", "br", "link"}


class Page(HTMLParser):
    """What is open, what is wrong, and the lines of the logs."""

    def __init__(self):
        super().__init__()
        self.open, self.faults, self.lines, self.marked = [], [], 0, 0

    def handle_starttag(self, tag, attributes):
        values = dict(attributes)
        if tag not in VOID:
            self.open.append(tag)
        for name in ("src", "href", "action"):
            if not (values.get(name) or "#").startswith(("#", "data:")):
                self.faults.append(f"a part from outside: {values[name]}")
        self.lines += tag == "span" and "data-n" in values
        self.marked += tag == "span" and "device" in (values.get("class") or "")

    def handle_endtag(self, tag):
        if not self.open or self.open.pop() != tag:
            self.faults.append(f"</{tag}> ends something else")


def junit_faults(path):
    suite = tree.parse(path).getroot().find("testsuite")
    cases = {case.get("name"): [part.tag for part in case] for case in suite}
    expected = {"01-one-stream": ["failure"], "02-two-streams": ["skipped"], "61-init-twice": []}
    counts = (suite.get("tests"), suite.get("failures"), suite.get("errors"), suite.get("skipped"))
    return [f"JUnit: {cases}, {counts}"] if cases != expected or counts != ("3", "1", "0", "1") else []


def main(words):
    page = Page()
    page.feed(Path(words[1]).read_text(encoding="utf-8"))
    faults = junit_faults(words[0]) + page.faults + [f"<{tag}> doesn't end" for tag in page.open]
    logs = [log.read_text(encoding="ascii").splitlines() for log in Path(words[2]).glob("*.log")]
    if page.lines != sum(map(len, logs)) or not page.marked:
        faults.append(f"the page has {page.lines} lines, {page.marked} marked")
    for fault in faults:
        print(fault)
    return 1 if faults else 0


if __name__ == "__main__":
    sys.exit(main(sys.argv[1:]))

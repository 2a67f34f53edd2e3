"""Reports for machines: JUnit XML, and TAP. A script is a case; what was expected to fail is skipped, or marked TODO."""
from xml.sax.saxutils import escape, quoteattr

from sentences import in_words
from tables import unmet_lines
from verdicts import OF_THE_KIT


def details_of(result):
    """What went wrong, in lines."""
    outcome = result.outcome
    lines = [in_words(breach) for breach in outcome.breaches if breach.side == "device"]
    lines += [f"not possible: {step}" for step in outcome.not_possible]
    lines += [f"the driver: {line}" for line in outcome.said.splitlines()]
    return lines + [f"the log: {outcome.log}"]


def printable(text):
    """XML 1.0 has no control characters but these three."""
    return "".join(letter if letter >= " " or letter in "\t\n\r" else "?" for letter in text)


def junit_case(result):
    verdict = str(result.verdict)
    head = f'<testcase classname="camera3.conformance" name={quoteattr(result.outcome.script.name)} ' \
           f'time="{result.outcome.seconds:.3f}"'
    if result.verdict.is_good:
        return head + "/>"
    if result.is_good:
        return f"{head}>\n<skipped message={quoteattr(printable('expected: ' + result.reasons))}/>\n</testcase>"
    kind = "error" if result.verdict.word in OF_THE_KIT else "failure"
    text = escape(printable("\n".join(details_of(result))))
    return f"{head}>\n<{kind} type={quoteattr(result.verdict.word)} message={quoteattr(printable(verdict))}>" \
           f"{text}</{kind}>\n</testcase>"


def junit(hal, results):
    bad = [result for result in results if not result.is_good]
    errors = sum(result.verdict.word in OF_THE_KIT for result in bad)
    skipped = sum(result.is_good and not result.verdict.is_good for result in results)
    seconds = sum(result.outcome.seconds for result in results)
    counts = f'tests="{len(results)}" failures="{len(bad) - errors}" errors="{errors}" skipped="{skipped}" ' \
             f'time="{seconds:.3f}"'
    lines = ['<?xml version="1.0" encoding="UTF-8"?>', f"<testsuites {counts}>",
             f"<testsuite name={quoteattr('camera3.h conformance of ' + hal)} {counts}>"]
    return "\n".join(lines + list(map(junit_case, results)) + ["</testsuite>", "</testsuites>", ""])


def tap_case(number, result):
    word = "ok" if result.verdict.is_good else "not ok"
    line = f"{word} {number} - {result.outcome.script.name}".replace("#", "")
    if result.verdict.is_good:
        return [line]
    if result.is_good:
        line += f" # TODO expected: {result.reasons}"
    return [line] + [f"# {text}" for text in [str(result.verdict)] + details_of(result)]


def tap(results):
    lines = ["TAP version 13", f"1..{len(results)}"]
    for number, result in enumerate(results, start=1):
        lines += tap_case(number, result)
    return lines + [f"# {line}" for line in unmet_lines(results)]

"""One HTML page of a run, without outside parts: sums, the table of rules, and each script with its verdict, its breaches
in sentences, its log with the lines marked, and its timeline where a program draws one. It is read without JavaScript;
with it the scripts and rules can be filtered."""
import base64
import re
import subprocess
from html import escape

from page_parts import SCRIPT, STYLE
from sentences import about, sentences
from tables import rules_sums
from verdicts import OF_THE_KIT


def kind_of(result):
    """The class of a script's row: good, expected, bad, or kit."""
    if result.verdict.is_good:
        return "good"
    if result.is_good:
        return "expected"
    return "kit" if result.verdict.word in OF_THE_KIT else "bad"


def cells(tag, values):
    return "<tr>" + "".join(f"<{tag}>{value}</{tag}>" for value in values) + "</tr>"


# ---- sums and rules


def sums_part(hal, results):
    kinds = [kind_of(result) for result in results]
    names = (("good", "keep the rules"), ("bad", "don't"), ("expected", "fail as expected"), ("kit", "weren't judged"))
    boxes = "".join(f'<li class="{kind}"><b>{kinds.count(kind)}</b> {name}</li>' for kind, name in names
                    if kind in kinds or kind in ("good", "bad"))
    return f'<h1>Conformance to camera3.h</h1>\n<p class="hal">{escape(hal)}</p>\n' \
           f'<ul class="sums"><li><b>{len(results)}</b> scripts</li>{boxes}</ul>'


def rule_row(rule, side, exercised, broken, scripts):
    state = "broken" if broken and side == "device" else "never" if not exercised else "kept"
    return f'<tr class="{state}" data-text="{rule} {side} {state}"><th scope="row">{rule}</th><td>{side}</td>' \
           f"<td class=n>{exercised}</td><td class=n>{broken}</td><td class=n>{scripts}</td>" \
           f"<td>{escape(sentences().get(rule, ''))}</td></tr>"


def rules_part(results):
    rows = "\n".join(rule_row(*row) for row in rules_sums(results))
    head = cells('th scope="col"', ("rule", "of", "exercised", "broken", "scripts", "it is broken where"))
    head = head.replace('</th scope="col">', "</th>")
    return f'<h2 id="rules">Rules</h2>\n<p>A rule is exercised where its question arises. What was exercised is counted ' \
           f"by the kit's own definitions, which nothing proves; of a rule that nothing exercised this run says nothing." \
           f'</p>\n<div class="wide" tabindex="0" role="region" aria-label="rules"><table class="rules">' \
           f"<thead>{head}</thead>\n<tbody>\n{rows}\n</tbody></table></div>"


# ---- a script


def breach_items(result, place):
    items = [f'<li class="{b.side}"><a href="#s{place}-{b.line}">line {b.line}</a>: <b>{b.rule}</b>{escape(about(b))}, '
             f"{b.side}: {escape(sentences().get(b.rule, ''))}</li>" for b in result.outcome.breaches]
    items += [f"<li>not possible: {escape(step)}</li>" for step in result.outcome.not_possible]
    items += [f"<li>the driver: {escape(line)}</li>" for line in result.outcome.said.splitlines()]
    items += [f"<li>expected, but it didn't come: {escape(e.failure)} ({escape(e.reason)})</li>" for e in result.unmet]
    return f"<ul>{''.join(items)}</ul>" if items else ""


def log_lines(result, place):
    """The log, each line numbered by itself, so that a copied line has no number."""
    marks = {}
    for breach in result.outcome.breaches:
        marks.setdefault(breach.line, []).append(breach)
    lines = []
    for number, line in enumerate(result.outcome.log_lines(), start=1):
        sides = {breach.side for breach in marks.get(number, [])}
        look = " device" if "device" in sides else " framework" if sides else " note" if line.startswith("#") else ""
        told = "".join(f' <em>{breach.rule}{escape(about(breach))}</em>' for breach in marks.get(number, []))
        lines.append(f'<span class="l{look}" id="s{place}-{number}" data-n="{number}">{escape(line)}{told}</span>')
    return "".join(lines)


def timeline_of(command, result):
    """The picture that the command draws of the log, or nothing."""
    if not command or not result.outcome.log.exists():
        return ""
    try:
        drawn = subprocess.run(command, input=result.outcome.log.read_bytes(), stdout=subprocess.PIPE,
                               stderr=subprocess.DEVNULL, check=False)
    except OSError:
        return ""
    match = re.search(r"<svg\b.*</svg>", drawn.stdout.decode("utf-8", "replace"), re.DOTALL)
    if not match:
        return ""
    name = f"timeline of {escape(result.outcome.script.name)}"
    picture = base64.b64encode(match[0].encode("utf-8")).decode("ascii")  # a picture by itself: its style stays its own
    return f'<h4>Timeline</h4><div class="wide" tabindex="0" role="region" aria-label="{name}">' \
           f'<img alt="{name}" src="data:image/svg+xml;base64,{picture}"></div>'


def script_part(result, place, command):
    kind = kind_of(result)
    name = result.outcome.script.name
    opened = " open" if kind in ("bad", "kit") else ""
    return f'<details class="{kind}" id="s{place}" data-text="{escape(name)} {escape(str(result))}"{opened}>' \
           f'<summary><b>{escape(name)}</b> <span class="verdict">{escape(str(result))}</span></summary>\n' \
           f"<p>{escape(result.outcome.script.about)}</p>{breach_items(result, place)}\n" \
           f"{timeline_of(command, result)}" \
           f'<details class="log"{opened}><summary>log, {len(result.outcome.log_lines())} lines</summary>' \
           f'<pre tabindex="0">{log_lines(result, place)}</pre></details></details>'


def filters():
    """They are shown by the script alone."""
    return '<form class="filters" hidden><label>only <select name="kind"><option value="">all</option>' \
           '<option value="bad kit">what fails</option><option value="expected">what fails as expected</option>' \
           '<option value="good">what keeps the rules</option></select></label> ' \
           '<label>with <input name="text" type="search" placeholder="a rule, script or verdict"></label> ' \
           '<output></output></form>'


def page(hal, results, command=()):
    scripts = "\n".join(script_part(result, place, command) for place, result in enumerate(results, start=1))
    return f"""<!DOCTYPE html>
<html lang="en">
<head><meta charset="utf-8"><meta name="viewport" content="width=device-width, initial-scale=1">
<title>Conformance of {escape(hal)}</title>
<style>{STYLE}</style></head>
<body>
<nav><a href="#rules">rules</a> <a href="#scripts">scripts</a></nav>
<main>
{sums_part(hal, results)}
{filters()}
{rules_part(results)}
<h2 id="scripts">Scripts</h2>
{scripts}
</main>
<script>{SCRIPT}</script>
</body></html>
"""

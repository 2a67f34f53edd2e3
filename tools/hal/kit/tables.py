"""The tables that conformance prints: a line for each script, and one for each rule."""
from questions import sides


def script_line(name, breaches, verdict):
    return f"{name:28} {breaches:60} {verdict}"


def breaches_in_short(breaches):
    """Each rule with how often it is broken, and the line of the first breach."""
    lines = {}
    for breach in breaches:
        lines.setdefault(breach.rule, []).append(breach.line)
    return ", ".join(f"{rule} ({len(found)}, from line {found[0]})" if len(found) > 1 else f"{rule} (line {found[0]})"
                     for rule, found in lines.items())


def sums(result):
    """The three columns of a script."""
    outcome = result.outcome
    return outcome.script.name, breaches_in_short(outcome.of("device")) or "-", str(result)


def rules_sums(results):
    """Of each rule, in the order of the table: (rule, side, times exercised, times broken, scripts that exercise it)."""
    found = []
    for rule, side in sides().items():
        times = [result.outcome.exercised.get(rule, 0) for result in results]
        broken = sum(breach.rule == rule for result in results for breach in result.outcome.breaches)
        found.append((rule, side, sum(times), broken, sum(map(bool, times))))
    return found


def rules_table(results):
    lines = [f"{'rule':28} {'of':9} {'exercised':>9} {'broken':>6} {'scripts':>7}"]
    lines += [f"{rule:28} {side:9} {exercised:>9} {broken:>6} {scripts:>7}"
              for rule, side, exercised, broken, scripts in rules_sums(results)]
    never = [rule for rule, side, exercised, _, _ in rules_sums(results) if not exercised and side == "device"]
    if never:
        lines.append("never exercised, so nothing is said of: " + ", ".join(never))
    return lines


def unmet_lines(results):
    """The expected failures that didn't come."""
    return [f"expected, but it didn't come: {result.outcome.script.name} {e.failure} ({e.reason})"
            for result in results for e in result.unmet]

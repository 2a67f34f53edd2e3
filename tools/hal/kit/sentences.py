"""What each rule says in plain words: the table of docs/YOUR-CAMERAS-LOG.md, which is written once, there."""
import re
from functools import lru_cache
from pathlib import Path

PAGE = Path(__file__).resolve().parents[3] / "docs" / "YOUR-CAMERAS-LOG.md"
ROW = re.compile(r"\| `([a-z-]+)` \| (.+) \|")


@lru_cache(maxsize=1)
def sentences():
    """Of each rule where it is broken."""
    if not PAGE.exists():
        return {}
    rows = map(ROW.fullmatch, PAGE.read_text(encoding="utf-8").splitlines())
    return {row[1]: row[2].replace("`", "") for row in rows if row}


def about(breach):
    """What the breach is about: a frame, a stream, both or neither."""
    parts = [f"{word} {number}" for word, number in (("frame", breach.frame), ("stream", breach.stream))
             if number is not None]
    return f" ({', '.join(parts)})" if parts else ""


def in_words(breach):
    return f"line {breach.line}: {breach.rule}{about(breach)}: {sentences().get(breach.rule, 'the rule is broken')}"

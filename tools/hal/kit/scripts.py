"""Scripts with what their heads say: what they try, which rules of the framework they break on purpose, and which rules
they must exercise.

    # Ten requests of one stream, and an end when all is back.
    # breaks: RULE ..
    # exercises: RULE ..
"""
from dataclasses import dataclass
from pathlib import Path


@dataclass(frozen=True)
class Script:
    path: Path
    about: str
    breaks: tuple
    exercises: tuple

    @property
    def name(self):
        return self.path.name.removesuffix(".script")


def words_behind(lines, head):
    return tuple(word for line in lines if line.startswith(head) for word in line[len(head):].split())


def read_script(path):
    """The script with its head: the comments before the first command."""
    lines = []
    for line in path.read_text(encoding="utf-8").splitlines():
        if not line.startswith("#"):
            break
        lines.append(line)
    heads = ("# breaks:", "# exercises:")
    about = " ".join(line[1:].strip() for line in lines if not line.startswith(heads))
    return Script(path, about, words_behind(lines, heads[0]), words_behind(lines, heads[1]))


def scripts_in(folder, only=()):
    """The scripts of a folder in the order of their names: all, or those whose names hold one of the words."""
    paths = sorted(folder.glob("*.script"))
    return [read_script(path) for path in paths if not only or any(word in path.name for word in only)]

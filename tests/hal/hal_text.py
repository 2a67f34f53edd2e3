"""The text of a hal log: its events as values, and the reader, which refuses a line with its cause.

The text is lines that end by LF or CR LF; words are separated by spaces; a line of spaces alone and a line whose first
word begins with `#` are ignored, and count where lines are numbered, from 1 on. The first line that isn't ignored is
`hal 1 K`. Causes: 43, the line has none of the shapes, or ends what was never begun; 42, a word in the place of a
number isn't one, or is out of its range; 41, there is no line that counts, told of the line behind the last; 45, of
line 0, the input is too long. In one line 43 comes before 42.
"""
import re
from dataclasses import dataclass
from typing import Optional, Tuple, Union

LONGEST_INPUT = 134_217_728
MOST_PARTS = 16  # streams of a configuration, targets of a request, buffers of a result, partial results
LONGEST_NUMBER = 20  # digits of 2**64 - 1
TRUNCATED, BAD_NUMBER, BAD_LINE, TOO_LONG = 41, 42, 43, 45

NUMBER = re.compile(r"0|[1-9][0-9]*")
HEXADECIMAL = re.compile(r"0|[1-9A-F][0-9A-F]*")
ERROR_NAME = re.compile(r"[A-Z0-9]{1,15}")
UNKNOWN = "?"  # a fence or status that the framework doesn't know; of streams and buffers it is None


@dataclass(frozen=True)
class Stream:
    """A stream of a configuration. direction: out, in or bidi."""
    stream: int
    format: str
    width: int
    height: int
    rotation: int
    direction: str


@dataclass(frozen=True)
class Target:
    """A buffer that a request asks for; fence None: no acquire fence."""
    stream: int
    buffer: int
    fence: Optional[int]


@dataclass(frozen=True)
class Returned:
    """A buffer that comes back; release None: no release fence. status: ok, error or ?."""
    stream: Optional[int]
    buffer: Optional[int]
    status: str
    release: Union[int, str, None]
    acquire: bool


@dataclass(frozen=True)
class Event:
    """One line. kind: a call (open, init, template, configure, request, flush, close), whose stage is begin, ok, error,
    null or end; or a callback: shutter, error-request, error-result, error-buffer, error-device, result."""
    line: int
    kind: str
    stage: str = ""
    frame: Optional[int] = None
    error: str = ""
    template: Optional[int] = None
    mode: Optional[int] = None
    streams: Tuple[Stream, ...] = ()
    most: Tuple[Tuple[int, int], ...] = ()
    same: bool = False
    targets: Tuple[Target, ...] = ()
    no_handle: bool = False
    bad_settings: bool = False
    time: Optional[int] = None
    stream: Optional[int] = None
    partial: Optional[int] = None
    pack: str = ""
    buffers: Tuple[Returned, ...] = ()
    input: bool = False

    @property
    def is_begin(self):
        return self.stage == "begin"

    @property
    def is_end(self):
        return self.stage not in ("", "begin")

    @property
    def is_callback(self):
        return self.stage == ""


class Refused(Exception):
    """The input isn't a hal log: the line, and the cause."""

    def __init__(self, line, cause):
        super().__init__(f"refused hal {line} {cause}")
        self.line = line
        self.cause = cause


class Shape(Exception):
    """The line has none of the shapes."""


class BadNumber(Exception):
    """A word in the place of a number isn't one, or is out of its range."""


def matches(condition):
    if not condition:
        raise Shape


class Numbers:
    """The numbers of one line. A bad one is told only when the whole line has a shape."""

    def __init__(self):
        self.is_bad = False

    def read(self, word, most=2**32 - 1, least=0, pattern=NUMBER, base=10):
        if len(word) <= LONGEST_NUMBER and pattern.fullmatch(word) and least <= int(word, base) <= most:
            return int(word, base)
        self.is_bad = True
        return least

    def read_or(self, absent, word):
        """None where the word is the one that stands for no number."""
        return None if word == absent else self.read(word)


def read_stream(word, numbers):
    """S:FORMATxWxH[:rD][:in|:bidi]"""
    fields = word.split(":")
    matches(len(fields) >= 2)
    size = fields[1].split("x")
    matches(len(size) == 3)
    if size[0] not in ("YUV", "IMPL", "BLOB", "RAW16"):
        matches(size[0].startswith("H"))
        numbers.read(size[0][1:], pattern=HEXADECIMAL, base=16)
    rest = fields[2:]
    rotation, direction = 0, "out"
    if rest and rest[0].startswith("r"):
        rotation = numbers.read(rest.pop(0)[1:], least=1)
    if rest and rest[0] in ("in", "bidi"):
        direction = rest.pop(0)
    matches(not rest)
    return Stream(numbers.read(fields[0]), size[0], numbers.read(size[1]), numbers.read(size[2]), rotation, direction)


def read_most(word, numbers):
    """S:MAX"""
    fields = word.split(":")
    matches(len(fields) == 2)
    return numbers.read(fields[0]), numbers.read(fields[1])


def read_target(word, numbers):
    """S:bB:F"""
    fields = word.split(":")
    matches(len(fields) == 3 and fields[1].startswith("b"))
    return Target(numbers.read(fields[0]), numbers.read(fields[1][1:]), numbers.read_or("-", fields[2]))


def read_returned(word, numbers):
    """S:bB:ok|error|?:F[:acquire]"""
    fields = word.split(":")
    matches(len(fields) in (4, 5) and fields[1].startswith("b") and fields[2] in ("ok", "error", UNKNOWN))
    matches(len(fields) == 4 or fields[4] == "acquire")
    release = UNKNOWN if fields[3] == UNKNOWN else numbers.read_or("-", fields[3])
    return Returned(numbers.read_or(UNKNOWN, fields[0]), numbers.read_or(UNKNOWN, fields[1][1:]), fields[2], release,
                    len(fields) == 5)


def read_list(words, reader, numbers):
    matches(len(words) <= MOST_PARTS)
    return tuple(reader(word, numbers) for word in words)


def read_end(line, kind, words, **fields):
    """ok | error E"""
    if words == ["ok"]:
        return Event(line, kind, "ok", **fields)
    matches(len(words) == 2 and words[0] == "error" and ERROR_NAME.fullmatch(words[1]))
    return Event(line, kind, "error", error=words[1], **fields)


def read_plain_call(line, words, numbers):
    """open, init, flush"""
    matches(len(words) >= 2)
    if words[1] == "begin":
        matches(len(words) == 2)
        return Event(line, words[0], "begin")
    matches(words[1] == "end")
    return read_end(line, words[0], words[2:])


def read_close(line, words, numbers):
    matches(words[1:] in (["begin"], ["end"]))
    return Event(line, "close", words[1])


def read_template(line, words, numbers):
    stage = {("begin",): "begin", ("end", "ok"): "ok", ("end", "null"): "null"}.get(tuple(words[2:]))
    matches(stage)
    return Event(line, "template", stage, template=numbers.read(words[1]))


def read_configure(line, words, numbers):
    matches(len(words) >= 2)
    if words[1] == "begin":
        rest = words[2:]
        is_mode = bool(rest) and rest[0].split(":")[0] == "mode" and rest[0].count(":") == 1
        mode = numbers.read(rest.pop(0).split(":")[1]) if is_mode else None
        return Event(line, "configure", "begin", mode=mode, streams=read_list(rest, read_stream, numbers))
    matches(words[1] == "end" and len(words) >= 3)
    if words[2] == "ok":
        return Event(line, "configure", "ok", most=read_list(words[3:], read_most, numbers))
    return read_end(line, "configure", words[2:])


def read_request(line, words, numbers):
    matches(len(words) >= 4)
    if words[2] == "end":
        return read_end(line, "request", words[3:], frame=numbers.read(words[1]))
    matches(words[2] == "begin" and words[3] in ("settings", "same"))
    rest = words[4:]
    bad_settings = bool(rest) and rest[-1] == "badsettings" and bool(rest.pop())
    no_handle = bool(rest) and rest[-1] == "nohandle" and bool(rest.pop())
    return Event(line, "request", "begin", frame=numbers.read(words[1]), same=words[3] == "same",
                 targets=read_list(rest, read_target, numbers), no_handle=no_handle, bad_settings=bad_settings)


def read_shutter(line, words, numbers):
    matches(len(words) == 3)
    return Event(line, "shutter", frame=numbers.read(words[1]), time=numbers.read(words[2], most=2**64 - 1))


def read_error(line, words, numbers):
    if words[1:] == ["device"]:
        return Event(line, "error-device")
    matches(len(words) == 3)
    parts = words[2].split(":")
    if len(parts) == 2 and parts[0] == "buffer":
        return Event(line, "error-buffer", frame=numbers.read(words[1]), stream=numbers.read_or(UNKNOWN, parts[1]))
    matches(words[2] in ("request", "result"))
    return Event(line, "error-" + words[2], frame=numbers.read(words[1]))


def read_result(line, words, numbers):
    matches(len(words) >= 5 and words[2] == "partial" and words[4] in ("metadata", "empty", "none"))
    rest = words[5:]
    has_input = bool(rest) and rest[-1] == "input" and bool(rest.pop())
    return Event(line, "result", frame=numbers.read(words[1]), partial=numbers.read(words[3]), pack=words[4],
                 buffers=read_list(rest, read_returned, numbers), input=has_input)


READERS = {
    "open": read_plain_call, "init": read_plain_call, "flush": read_plain_call, "close": read_close,
    "template": read_template, "configure": read_configure, "request": read_request,
    "shutter": read_shutter, "error": read_error, "result": read_result,
}


def read_count(line, words):
    """hal 1 K"""
    if len(words) != 3 or words[:2] != ["hal", "1"]:
        raise Refused(line, BAD_LINE)
    numbers = Numbers()
    count = numbers.read(words[2], most=MOST_PARTS, least=1)
    if numbers.is_bad:
        raise Refused(line, BAD_NUMBER)
    return count


def read_event(line, words):
    numbers = Numbers()
    try:
        matches(words[0] in READERS)
        event = READERS[words[0]](line, words, numbers)
    except Shape:
        raise Refused(line, BAD_LINE) from None
    if numbers.is_bad:
        raise Refused(line, BAD_NUMBER)
    return event


def lines_of(data):
    """The lines without their ends; the last may lack its end."""
    lines = data.split(b"\n")
    last = lines.pop()
    ended = [line[:-1] if line.endswith(b"\r") else line for line in lines]
    return ended + [last] if last else ended


class Begins:
    """Which calls have a begin: an end without one is refused."""

    def __init__(self):
        self.known = set()

    def take(self, event):
        name = (event.kind, event.frame)
        if event.is_begin:
            self.known.add(name)
        elif event.is_end and name not in self.known:
            raise Refused(event.line, BAD_LINE)


def read(data):
    """The partial result count and the events of a hal log; Refused where it isn't one."""
    if len(data) > LONGEST_INPUT:
        raise Refused(0, TOO_LONG)
    count, events, begins = None, [], Begins()
    lines = lines_of(data)
    for place, line in enumerate(lines, start=1):
        if any(byte < 0x20 or byte > 0x7E for byte in line):
            raise Refused(place, BAD_LINE)
        words = line.decode("ascii").split()
        if not words or words[0].startswith("#"):
            continue
        if count is None:
            count = read_count(place, words)
            continue
        event = read_event(place, words)
        begins.take(event)
        events.append(event)
    if count is None:
        raise Refused(len(lines) + 1, TRUNCATED)
    return count, events

"""The text of a hal log, both versions: its events as values, the reader, which refuses a line with its cause, and the
printer, which has one spelling for each log.

The text is lines that end by LF or CR LF; words are separated by spaces; a line of spaces alone and a line whose first
word begins with `#` are ignored, and count where lines are numbered, from 1 on. The first line that isn't ignored is
`hal 1 K` or `hal 2 K`. Causes, of which 43 comes before 42 in one line:

  43  the line has none of the shapes; it is an `end` for which no `begin` of its call is left; it has a time where the
      events before it have none, or none where they have one
  42  a word in the place of a number isn't one, or is out of its range; a time is below the one before
  41  there is no line that counts, told of the line behind the last
  45  of line 0: the input is too long

The words of version 2 alone are `in:` for an input, `*` for a fence that the recorder couldn't tell, and `@T` for the
time of a line; version 1 alone has the word `input`, of a result in which the input buffer comes back.
"""
import re
from dataclasses import dataclass, replace
from typing import Optional, Tuple, Union

LONGEST_INPUT = 134_217_728
MOST_PARTS = 16  # streams of a configuration, targets of a request, buffers of a result, partial results
LONGEST_NUMBER = 20  # digits of 2**64 - 1
MOST_32, MOST_64 = 2**32 - 1, 2**64 - 1
TRUNCATED, BAD_NUMBER, BAD_LINE, TOO_LONG = 41, 42, 43, 45

NUMBER = re.compile(r"0|[1-9][0-9]*")
HEXADECIMAL = re.compile(r"0|[1-9A-F][0-9A-F]*")
ERROR_NAME = re.compile(r"[A-Z0-9]{1,15}")
FORMATS = ("YUV", "IMPL", "BLOB", "RAW16")
UNKNOWN = "?"    # a fence that the framework surely never made, or a status; of streams and buffers it is None
UNTOLD = "*"     # a fence that the recorder couldn't tell

Fence = Union[int, str, None]  # None: no fence


@dataclass(frozen=True)
class Stream:
    """A stream of a configuration. direction: out, in or bidi."""
    stream: int
    format: str
    width: int
    height: int
    rotation: int
    direction: str


@dataclass(frozen=True)
class Target:
    """A buffer that a request brings: to be filled, or as its input. fence: its acquire fence."""
    stream: int
    buffer: int
    fence: Fence


@dataclass(frozen=True)
class Returned:
    """A buffer that comes back. status: ok, error or ?; release: its release fence."""
    stream: Optional[int]
    buffer: Optional[int]
    status: str
    release: Fence
    acquire: bool


@dataclass(frozen=True)
class Event:
    """One line. kind: a call (open, init, template, configure, request, flush, close), whose stage is begin, ok, error,
    null or end; or a callback: shutter, error-request, error-result, error-buffer, error-device, result."""
    line: int
    kind: str
    stage: str = ""
    frame: Optional[int] = None
    error: str = ""
    template: Optional[int] = None
    mode: Optional[int] = None
    streams: Tuple[Stream, ...] = ()
    most: Tuple[Tuple[int, int], ...] = ()
    same: bool = False
    targets: Tuple[Target, ...] = ()
    input: Optional[Target] = None
    no_handle: bool = False
    bad_settings: bool = False
    timestamp: Optional[int] = None
    stream: Optional[int] = None
    partial: Optional[int] = None
    pack: str = ""
    buffers: Tuple[Returned, ...] = ()
    back: Optional[Returned] = None    # the input that comes back
    has_input_word: bool = False       # version 1's `input`
    time: Optional[int] = None

    @property
    def is_begin(self):
        return self.stage == "begin"

    @property
    def is_end(self):
        return self.stage not in ("", "begin")

    @property
    def is_callback(self):
        return self.stage == ""

    @property
    def call(self):
        """What a begin and an end of one call have in common."""
        return self.kind, self.frame, self.template


@dataclass(frozen=True)
class Log:
    version: int
    count: int  # the device's partial result count
    events: Tuple[Event, ...]

    @property
    def has_times(self):
        return bool(self.events) and self.events[0].time is not None


class Refused(Exception):
    """The input isn't a hal log: the line, and the cause."""

    def __init__(self, line, cause):
        super().__init__(f"refused hal {line} {cause}")
        self.line = line
        self.cause = cause


class Shape(Exception):
    """The line has none of the shapes."""


def matches(condition):
    if not condition:
        raise Shape


class Words:
    """The words of one line, with the version by which they are read. A bad number is told only when the whole line
    has a shape."""

    def __init__(self, version, words):
        self.version = version
        self.words = words
        self.is_bad = False

    def number(self, word, most=MOST_32, least=0, pattern=NUMBER, base=10):
        if len(word) <= LONGEST_NUMBER and pattern.fullmatch(word) and least <= int(word, base) <= most:
            return int(word, base)
        self.is_bad = True
        return least

    def number_or(self, absent, word):
        """None where the word is the one that stands for no number."""
        return None if word == absent else self.number(word)

    def fence(self, word, *signs):
        """`-` for none, one of the signs, or a number."""
        return word if word in signs else self.number_or("-", word)

    @property
    def untold(self):
        """The sign of a fence that can't be told: version 2 alone has one."""
        return (UNTOLD,) if self.version == 2 else ()

    def take_last(self, word):
        """Whether the last word is this one; then it is gone."""
        return bool(self.words) and self.words[-1] == word and bool(self.words.pop())

    def take_prefixed(self, prefix):
        """The rest of the last word, which begins so, of version 2; then it is gone. Else none."""
        is_so = self.version == 2 and bool(self.words) and self.words[-1].startswith(prefix)
        return self.words.pop()[len(prefix):] if is_so else None

    def rest(self, start, reader):
        matches(len(self.words) - start <= MOST_PARTS)
        return tuple(reader(self, word) for word in self.words[start:])


# ---- parts of a line


def read_stream(words, word):
    """S:FORMATxWxH[:rD][:in|:bidi]"""
    fields = word.split(":")
    matches(len(fields) >= 2)
    size = fields[1].split("x")
    matches(len(size) == 3)
    if size[0] not in FORMATS:
        matches(size[0].startswith("H"))
        words.number(size[0][1:], pattern=HEXADECIMAL, base=16)
    rest = fields[2:]
    rotation, direction = 0, "out"
    if rest and rest[0].startswith("r"):
        rotation = words.number(rest.pop(0)[1:], least=1)
    if rest and rest[0] in ("in", "bidi"):
        direction = rest.pop(0)
    matches(not rest)
    return Stream(words.number(fields[0]), size[0], words.number(size[1]), words.number(size[2]), rotation, direction)


def read_most(words, word):
    """S:MAX"""
    fields = word.split(":")
    matches(len(fields) == 2)
    return words.number(fields[0]), words.number(fields[1])


def read_target(words, word):
    """S:bB:F"""
    fields = word.split(":")
    matches(len(fields) == 3 and fields[1].startswith("b"))
    return Target(words.number(fields[0]), words.number(fields[1][1:]), words.fence(fields[2], *words.untold))


def read_returned(words, word):
    """S:bB:ok|error|?:F[:acquire]"""
    fields = word.split(":")
    matches(len(fields) in (4, 5) and fields[1].startswith("b") and fields[2] in ("ok", "error", UNKNOWN))
    matches(len(fields) == 4 or fields[4] == "acquire")
    release = words.fence(fields[3], UNKNOWN, *words.untold)
    return Returned(words.number_or(UNKNOWN, fields[0]), words.number_or(UNKNOWN, fields[1][1:]), fields[2], release,
                    len(fields) == 5)


# ---- lines


def read_end(line, kind, words, **fields):
    """ok | error E"""
    if words == ["ok"]:
        return Event(line, kind, "ok", **fields)
    matches(len(words) == 2 and words[0] == "error" and ERROR_NAME.fullmatch(words[1]))
    return Event(line, kind, "error", error=words[1], **fields)


def read_plain_call(line, words):
    """open, init, flush"""
    kind, *rest = words.words
    if rest == ["begin"]:
        return Event(line, kind, "begin")
    matches(rest and rest[0] == "end")
    return read_end(line, kind, rest[1:])


def read_close(line, words):
    matches(words.words[1:] in (["begin"], ["end"]))
    return Event(line, "close", words.words[1])


def read_template(line, words):
    stage = {("begin",): "begin", ("end", "ok"): "ok", ("end", "null"): "null"}.get(tuple(words.words[2:]))
    matches(stage)
    return Event(line, "template", stage, template=words.number(words.words[1]))


def read_configure(line, words):
    matches(len(words.words) >= 2)
    if words.words[1] == "begin":
        has_mode = len(words.words) > 2 and words.words[2].startswith("mode:") and words.words[2].count(":") == 1
        mode = words.number(words.words[2][len("mode:"):]) if has_mode else None
        return Event(line, "configure", "begin", mode=mode, streams=words.rest(2 + has_mode, read_stream))
    matches(words.words[1] == "end")
    if words.words[2:3] == ["ok"]:
        return Event(line, "configure", "ok", most=words.rest(3, read_most))
    return read_end(line, "configure", words.words[2:])


def read_request(line, words):
    matches(len(words.words) >= 4)
    frame = words.number(words.words[1])
    if words.words[2] == "end":
        return read_end(line, "request", words.words[3:], frame=frame)
    matches(words.words[2] == "begin" and words.words[3] in ("settings", "same"))
    bad_settings = words.take_last("badsettings")
    no_handle = words.take_last("nohandle")
    given = words.take_prefixed("in:")
    return Event(line, "request", "begin", frame=frame, same=words.words[3] == "same",
                 input=None if given is None else read_target(words, given), targets=words.rest(4, read_target),
                 no_handle=no_handle, bad_settings=bad_settings)


def read_shutter(line, words):
    matches(len(words.words) == 3)
    return Event(line, "shutter", frame=words.number(words.words[1]),
                 timestamp=words.number(words.words[2], most=MOST_64))


def read_error(line, words):
    if words.words[1:] == ["device"]:
        return Event(line, "error-device")
    matches(len(words.words) == 3)
    frame = words.number(words.words[1])
    parts = words.words[2].split(":")
    if len(parts) == 2 and parts[0] == "buffer":
        return Event(line, "error-buffer", frame=frame, stream=words.number_or(UNKNOWN, parts[1]))
    matches(words.words[2] in ("request", "result"))
    return Event(line, "error-" + words.words[2], frame=frame)


def read_result(line, words):
    matches(len(words.words) >= 5 and words.words[2] == "partial" and words.words[4] in ("metadata", "empty", "none"))
    given = words.take_prefixed("in:")
    has_input_word = words.version == 1 and words.take_last("input")
    return Event(line, "result", frame=words.number(words.words[1]), partial=words.number(words.words[3]),
                 pack=words.words[4], buffers=words.rest(5, read_returned),
                 back=None if given is None else read_returned(words, given), has_input_word=has_input_word)


READERS = {
    "open": read_plain_call, "init": read_plain_call, "flush": read_plain_call, "close": read_close,
    "template": read_template, "configure": read_configure, "request": read_request,
    "shutter": read_shutter, "error": read_error, "result": read_result,
}


def read_first(line, given):
    """hal 1 K, hal 2 K"""
    if len(given) != 3 or given[0] != "hal" or given[1] not in ("1", "2"):
        raise Refused(line, BAD_LINE)
    words = Words(int(given[1]), given)
    count = words.number(given[2], most=MOST_PARTS, least=1)
    if words.is_bad:
        raise Refused(line, BAD_NUMBER)
    return words.version, count


class Reader:
    """The events of a log, each read beside those before."""

    def __init__(self, version):
        self.version = version
        self.begun = {}  # of each call: how many begins have no end yet
        self.events = []

    def take(self, line, given):
        words = Words(self.version, given)
        try:
            time = words.take_prefixed("@")
            matches(words.words and words.words[0] in READERS)
            event = READERS[words.words[0]](line, words)
            self.count_call(event, words)
            self.check_time(time)
        except Shape:
            raise Refused(line, BAD_LINE) from None
        if time is not None:
            event = replace(event, time=words.number(time, most=MOST_64, least=self.last_time()))
        if words.is_bad:
            raise Refused(line, BAD_NUMBER)
        self.events.append(event)

    def last_time(self):
        return self.events[-1].time if self.events else 0

    def count_call(self, event, words):
        """Each end has a begin of its own. One whose number can't be read isn't looked for."""
        if words.is_bad and event.kind in ("request", "template"):
            return
        if event.is_begin:
            self.begun[event.call] = self.begun.get(event.call, 0) + 1
        elif event.is_end:
            matches(self.begun.get(event.call, 0) > 0)
            self.begun[event.call] -= 1

    def check_time(self, time):
        """All lines have a time, or none."""
        if self.events:
            matches((time is None) == (self.events[-1].time is None))


def lines_of(data):
    """The lines without their ends; the last may lack its end."""
    lines = data.split(b"\n")
    last = lines.pop()
    ended = [line[:-1] if line.endswith(b"\r") else line for line in lines]
    return ended + [last] if last else ended


def read(data):
    """The log that the text has; Refused where it has none."""
    if len(data) > LONGEST_INPUT:
        raise Refused(0, TOO_LONG)
    reader, count = None, 0
    lines = lines_of(data)
    for place, line in enumerate(lines, start=1):
        if any(byte < 0x20 or byte > 0x7E for byte in line):
            raise Refused(place, BAD_LINE)
        words = line.decode("ascii").split()
        if not words or words[0].startswith("#"):
            continue
        if reader is None:
            version, count = read_first(place, words)
            reader = Reader(version)
        else:
            reader.take(place, words)
    if reader is None:
        raise Refused(len(lines) + 1, TRUNCATED)
    return Log(reader.version, count, tuple(reader.events))


# ---- the one spelling


def or_sign(number, sign):
    return sign if number is None else str(number)


def spell_stream(stream):
    rotation = f":r{stream.rotation}" if stream.rotation else ""
    direction = "" if stream.direction == "out" else f":{stream.direction}"
    return f"{stream.stream}:{stream.format}x{stream.width}x{stream.height}{rotation}{direction}"


def spell_target(target):
    return f"{target.stream}:b{target.buffer}:{or_sign(target.fence, '-')}"


def spell_returned(returned):
    acquire = ":acquire" if returned.acquire else ""
    return (f"{or_sign(returned.stream, UNKNOWN)}:b{or_sign(returned.buffer, UNKNOWN)}:{returned.status}"
            f":{or_sign(returned.release, '-')}{acquire}")


def words_of_call(event):
    """The words of a call's line behind its name and number."""
    if event.stage == "end":
        return ["end"]
    if event.is_end:
        most = [f"{stream}:{number}" for stream, number in event.most]
        return ["end", event.stage] + ([event.error] if event.error else []) + most
    if event.kind == "configure":
        mode = [] if event.mode is None else [f"mode:{event.mode}"]
        return ["begin"] + mode + [spell_stream(stream) for stream in event.streams]
    if event.kind == "request":
        odd = [word for word, has_it in (("nohandle", event.no_handle), ("badsettings", event.bad_settings)) if has_it]
        given = [f"in:{spell_target(event.input)}"] if event.input else []
        return (["begin", "same" if event.same else "settings"] + [spell_target(target) for target in event.targets]
                + given + odd)
    return ["begin"]


def words_of(event):
    if event.kind == "shutter":
        return ["shutter", event.frame, event.timestamp]
    if event.kind == "error-device":
        return ["error", "device"]
    if event.kind == "error-buffer":
        return ["error", event.frame, f"buffer:{or_sign(event.stream, UNKNOWN)}"]
    if event.is_callback and event.kind != "result":
        return ["error", event.frame, event.kind.split("-")[1]]
    if event.kind == "result":
        back = [f"in:{spell_returned(event.back)}"] if event.back else []
        return (["result", event.frame, "partial", event.partial, event.pack]
                + [spell_returned(returned) for returned in event.buffers] + back
                + (["input"] if event.has_input_word else []))
    number = event.frame if event.kind == "request" else event.template
    return [event.kind] + ([] if number is None else [number]) + words_of_call(event)


def spell_event(event):
    time = [] if event.time is None else [f"@{event.time}"]
    return " ".join(map(str, words_of(event) + time))


def spell(log):
    """The text of a log. Reading it gives the log again, each event at the line behind the one before."""
    return "".join(line + "\n" for line in [f"hal {log.version} {log.count}"] + [spell_event(e) for e in log.events])

#!/usr/bin/env python3
"""Writes the random hal log of a seed: a framework and a device that play together, more or less wildly.

usage: random_log.py SEED

A seed settles the version, and how wild both are: from none at all to where each choice is a wrong one as often as not.
Calls and callbacks interleave, calls of a kind may be in call at once, requests may have inputs, configurations modes,
fences may be such as the recorder couldn't tell, lines may have times; numbers may lie at the ends of their ranges,
numbers are begun again, devices are opened anew; the log stops anywhere, and now and then a line is damaged, so that
the log is refused.
"""
import random
import sys

TOP = 2**32 - 1
FORMATS = ["YUV", "IMPL", "BLOB", "RAW16", "H1", "HFFFFFFFF"]
ERRORS = ["EINVAL", "EINVAL", "EINVAL", "ENODEV", "ENODEV", "ENOSYS", "EBUSY", "E1", "ABCDEFGHIJKLMNO"]
MODES = [0, 1, 1, 1, 2, 0x7FFF, 0x8000, TOP]
TEMPLATES = [0, 1, 2, 6, 6, 7, 0x3FFFFFFF, 0x40000000, TOP]
STEPS = [0, 0, 1, 1000, 1000, 3_000_000, 8_000_000, 40_000_000, 600_000_000, 1_200_000_000]  # nanoseconds
INPUT_BUFFERS = 1000  # those that came from elsewhere


class Request:
    """A request that was begun: what of it the device still owes."""

    def __init__(self, number, targets, given, count):
        self.number = number
        self.targets = targets
        self.given = given            # its input, or none
        self.left = list(targets)
        self.input_left = given is not None
        self.parts = list(range(1, count + 1))
        self.has_shutter = False
        self.is_failed = False
        self.has_error = False

    @property
    def is_over(self):
        return not self.left and not self.input_left and (not self.parts or self.is_failed)


class Play:
    """Both sides, and the lines that they made."""

    def __init__(self, seed, version=None):
        self.dice = random.Random(seed)
        self.version = self.dice.choice([1, 2, 2]) if version is None else version
        self.wild = self.dice.choice([0, 0, 0.01, 0.03, 0.1, 0.3, 0.5])
        self.count = self.dice.choice([1, 1, 1, 2, 2, 3, 16])
        self.length = self.dice.choice([10, 40, 80, 150])
        # how often the device takes a later request first, leaves out a shutter or a notice, and tells errors
        self.disorder = self.dice.choice([0, 0, 0.3, 0.5])
        self.silence = self.dice.choice([0, 0, 0, 0.2])
        self.trouble = self.dice.choice([0, 0.04, 0.04, 0.2])
        # how often the device says a thing again, or an error that nothing asks for
        self.chatter = self.dice.choice([0, 0, 0, 0.05, 0.2])
        # how often a call begins beside another, a configuration takes inputs or has a mode, a fence can't be told
        self.crowd = self.dice.choice([0, 0, 0, 0.1, 0.4])
        self.inputs = self.dice.choice([0, 0.5, 1])
        self.modes = self.dice.choice([0, 0, 0.3, 1])
        self.blindness = self.dice.choice([0, 0, 0.1, 0.5]) if self.version == 2 else 0
        self.has_times = self.version == 2 and self.dice.random() < 0.4
        self.time = self.dice.choice([0, 10**12])
        self.lines = []
        self.told = []     # the device's callbacks, without their times
        self.in_call = []  # the calls that have begun, as the words before `end`
        self.fence = 0
        self.number = self.dice.choice([0, 0, 0, 1, 100, TOP - 12])
        self.streams_known = [0, 1, 2, self.dice.choice([3, TOP])]
        self.start_device()

    def start_device(self):
        self.is_initialized = False
        self.asked = []       # of the configure in call
        self.configured = []  # (stream, max_buffers)
        self.entry = self.asked_entry = None  # the stream that takes inputs
        self.mode = self.asked_mode = 0
        self.is_fresh = True
        self.requests = []

    # ---- choices

    def is_wild(self):
        return self.dice.random() < self.wild

    def happens(self, share):
        return self.dice.random() < share

    def chance(self, percent):
        return self.dice.random() * 100 < percent

    def say(self, *words):
        if self.has_times:
            self.time += self.dice.choice(STEPS)
            words += (f"@{self.time}",)
        self.lines.append(" ".join(str(word) for word in words if word != ""))

    def call_back(self, *words):
        self.told.append(words)
        self.say(*words)

    def any_number(self):
        near = [request.number for request in self.requests[-6:]] or [self.number]
        return self.dice.choice(near + near + [self.dice.choice(near) + 1, 0, TOP]) % (TOP + 1)

    def any_stream(self):
        return self.dice.choice(self.streams_known + [7])

    # ---- calls

    def begin(self):
        calls = ["request"] * 12 + ["flush"] * 2 + ["template", "configure"]
        if not self.is_initialized and not self.is_wild():
            calls = ["init"]
        elif not self.configured and not self.is_wild():
            calls = ["configure", "template"]
        if self.is_wild():
            calls = ["open", "init", "template", "configure", "request", "request", "flush", "close"]
        getattr(self, "begin_" + self.dice.choice(calls))()

    def begin_open(self):
        self.say("open begin")
        self.in_call.append("open")

    def begin_init(self):
        self.say("init begin")
        self.in_call.append("init")

    def begin_template(self):
        template = self.dice.choice(TEMPLATES if self.is_wild() else [1, 2, 3, 4, 5, 6])
        self.say("template", template, "begin")
        self.in_call.append(f"template {template}")

    def begin_flush(self):
        self.say("flush begin")
        self.in_call.append("flush")

    def begin_close(self):
        self.say("close begin")
        self.in_call.append("close")

    def begin_configure(self):
        if any(not request.is_over for request in self.requests) and not self.is_wild():
            return self.callback()
        streams = self.dice.sample(self.streams_known, self.dice.randint(1, 3))
        if self.is_wild():
            streams = [self.any_stream() for _ in range(self.dice.choice([0, 1, 2, 16]))]
        self.asked, kinds, self.asked_entry = streams, {}, None
        if streams and self.happens(self.inputs):
            self.asked_entry = streams[-1]
            kinds[streams[-1]] = ":bidi" if len(streams) == 1 else self.dice.choice([":in", ":bidi"])
        self.asked_mode = self.dice.choice(MODES if self.is_wild() else [0, 1, 1]) if self.happens(self.modes) else 0
        mode = f"mode:{self.asked_mode}" if self.asked_mode or self.chance(5) else ""
        self.say("configure begin", mode, *[self.stream_words(stream, kinds) for stream in streams])
        self.in_call.append("configure")

    def stream_words(self, stream, kinds):
        rotations = [45, 360, TOP, 90] if self.is_wild() else [90, 180, 270]
        rotation = f":r{self.dice.choice(rotations)}" if self.chance(5) else ""
        size = self.dice.choice(["640x480", "1x1", f"{TOP}x{TOP}"])
        kind = self.dice.choice(["", ":in", ":bidi"]) if self.is_wild() else kinds.get(stream, "")
        return f"{stream}:{self.dice.choice(FORMATS)}x{size}{rotation}{kind}"

    def held(self):
        return {target[1] for request in self.requests for target in request.left}

    def begin_request(self):
        if "request" in " ".join(self.in_call) and not self.is_wild() and not self.happens(self.crowd):
            return self.callback()
        targets = self.pick_targets()
        if not targets and not self.is_wild():
            return self.callback()
        number = self.number
        if self.is_wild():
            number = self.any_number()
        else:
            self.number = min(TOP, self.number + self.dice.choice([1, 1, 1, 1, 2]))
        is_same = not self.is_fresh if not self.is_wild() else self.chance(50)
        odd = [word for word in ("nohandle", "badsettings") if self.is_wild()]
        given = self.pick_input()
        entry = [f"in:{self.target_word(given)}"] if given else []
        words = [self.target_word(target) for target in targets]
        self.say("request", number, "begin", "same" if is_same else "settings", *words, *entry, *odd)
        self.requests.append(Request(number, targets, given, self.count))
        self.in_call.append(f"request {number}")

    def target_word(self, target):
        stream, buffer, fence = target
        return f"{stream}:b{buffer}:{'-' if fence is None else fence}"

    def pick_input(self):
        """Of a request of version 2, where a stream takes one."""
        if self.version == 1 or (self.entry is None and not self.is_wild()) or not self.happens(0.4):
            return None
        stream = self.any_stream() if self.is_wild() or self.entry is None else self.entry
        buffer = self.dice.choice([1, 2, TOP]) if self.is_wild() else INPUT_BUFFERS + self.dice.randrange(5)
        return stream, buffer, self.new_fence()

    def new_fence(self):
        self.fence += 1
        if self.happens(self.blindness):
            return "*"
        return self.fence if self.chance(40) else None

    def pick_targets(self):
        streams = [stream for stream, _ in self.configured if self.chance(70)]
        if self.is_wild():
            streams = [self.any_stream() for _ in range(self.dice.choice([0, 1, 2, 2, 3, 16]))]
        held, targets = self.held(), []
        for stream in streams:
            most = dict(self.configured).get(stream, 4)
            own = [buffer for buffer in held if buffer // 10 == stream % 10]
            if len(own) >= most and not self.is_wild():
                continue
            free = [stream % 10 * 10 + place for place in range(10) if stream % 10 * 10 + place not in held]
            buffer = self.dice.choice(free) if free and not self.is_wild() else self.dice.choice([1, 2, 11, 12, TOP])
            targets.append((stream, buffer, self.new_fence()))
        return targets

    def end(self):
        call = self.dice.choice(self.in_call)
        name = call.split()[0]
        if name in ("flush", "close") and not self.is_wild():
            self.finish()
        if not self.is_wild() or self.chance(98):
            self.in_call.remove(call)
        if name == "close":
            return self.end_close()
        if name == "template":
            return self.say(call, "end", "null" if self.chance(15) and self.is_wild() else "ok")
        if self.is_wild() and self.chance(60):
            return self.end_badly(call)
        self.say(call, "end ok", *self.end_words(name))
        getattr(self, "ended_" + name, lambda *_: None)(call)
        return None

    def finish(self):
        """What a flush or a close waits for."""
        for request in self.requests:
            if not request.is_over and not request.has_shutter and not request.has_error:
                self.fail(request)
            while not request.is_over:
                self.give(request)

    def end_words(self, name):
        if name != "configure":
            return []
        most = [(stream, self.dice.choice([1, 2, 3, 4])) for stream in self.asked]
        if self.is_wild():
            most = [(stream, self.dice.choice([0, 1, TOP])) for stream in self.asked if self.chance(80)]
            most += [(self.any_stream(), 2)] if self.chance(20) else []
        self.entry, self.mode = self.asked_entry, self.asked_mode
        self.configured, self.is_fresh = most[:16], True
        return [f"{stream}:{number}" for stream, number in self.configured]

    def end_badly(self, call):
        self.say(call, "end error", self.dice.choice(ERRORS))
        for request in self.requests:
            if call == f"request {request.number}" and self.chance(80):
                request.left, request.parts, request.input_left = [], [], False

    def end_close(self):
        self.say("close end")
        self.start_device()
        self.forget_calls()
        if not self.is_wild():
            self.say("open begin")
            self.say("open end ok")

    def ended_open(self, _):
        self.start_device()
        self.forget_calls()

    def forget_calls(self):
        """What was in call at the device before; seldom one of them returns all the same."""
        self.in_call = [call for call in self.in_call if self.is_wild()]

    def ended_init(self, _):
        self.is_initialized = True

    def ended_request(self, _):
        self.is_fresh = False

    # ---- callbacks

    def callback(self):
        open_requests = [request for request in self.requests if not request.is_over]
        if self.told and self.happens(self.chatter):
            return self.chat()
        if self.is_wild() or not open_requests:
            if self.is_wild():
                self.any_callback()
            return
        firsts = [next((r for r in open_requests if (r.given is None) == is_normal), open_requests[0])
                  for is_normal in (True, False)]
        request = self.dice.choice(open_requests if self.happens(self.disorder) else firsts)
        if self.happens(self.trouble) and not request.has_shutter and not request.has_error:
            self.fail(request)
        elif self.happens(self.trouble) and request.parts and not request.has_error:
            request.has_error = True
            self.call_back("error", request.number, "result")
        elif not request.has_shutter:
            request.has_shutter = True
            if not self.happens(self.silence):
                self.call_back("shutter", request.number, self.dice.choice([0, 1000, 2**64 - 1]))
        else:
            self.give(request)

    def chat(self):
        """What was told of late, again, or an error besides."""
        words = self.dice.choice(self.told[-8:])
        if self.chance(50) and len(words) > 1:
            words = ("error", words[1], self.dice.choice(["request", "result", f"buffer:{self.any_stream()}"]))
        self.call_back(*words)

    def fail(self, request):
        self.call_back("error", request.number, "request")
        request.is_failed = True
        buffers = [self.returned(target, "error") for target in request.left]
        entry = self.entry_words(request, "error")
        request.left, request.parts = [], []
        if buffers or entry:
            pack = self.dice.choice([(0, "none"), (self.count, "empty")])
            self.call_back("result", request.number, "partial", *pack, *buffers, *entry)

    def entry_words(self, request, status):
        """The input, which comes back with it."""
        if not request.input_left:
            return []
        request.input_left = False
        return ["in:" + self.returned(request.given, status)]

    def returned(self, target, status):
        stream, buffer, fence = target
        release = "-" if fence is None or status == "ok" or self.chance(50) else fence
        if status == "ok" and self.chance(5):
            self.fence += 1
            release = self.fence
        if self.happens(self.blindness):
            release = "*"
        if self.is_wild():
            release = self.dice.choice(["?", 0, self.fence])
            status = self.dice.choice(["ok", "error", "error", "?"])
            stream = self.dice.choice([stream, stream, self.any_stream(), "?"])
            buffer = self.dice.choice([buffer, buffer, buffer, 1, "?"])
        odd = ":acquire" if self.is_wild() and self.chance(30) else ""
        return f"{stream}:b{buffer}:{status}:{release}{odd}"

    def give(self, request):
        number, pack, buffers, entry = 0, "none", [], []
        if request.input_left and self.chance(50):
            entry = self.entry_words(request, self.dice.choice(["ok", "ok", "error"]))
        if request.parts and (self.chance(60) or not (request.left or entry)):
            number, pack = request.parts.pop(0), "empty" if self.mode and self.chance(50) else "metadata"
        while request.left and (self.chance(50) or (pack == "none" and not entry)):
            target = request.left.pop(0)
            status = "error" if self.happens(self.trouble) else "ok"
            if status == "error" and not self.happens(self.silence):
                self.call_back("error", request.number, f"buffer:{target[0]}")
            buffers.append(self.returned(target, status))
            if pack == "none":
                break
        if self.is_wild():
            number = self.dice.choice([0, 1, self.count, self.count + 1, TOP])
        if self.is_wild():
            pack = self.dice.choice(["metadata", "empty", "none"])
        word = "input" if self.version == 1 and self.chance(2) else ""
        if pack != "none" or buffers or entry or self.is_wild():
            self.call_back("result", request.number, "partial", number, pack, *buffers, *entry, word)

    def any_callback(self):
        number = self.any_number()
        mine = [request for request in self.requests if request.number == number]
        targets = [target for request in mine for target in request.targets]
        stream = self.dice.choice([target[0] for target in targets] + [self.any_stream(), "?"])
        kind = self.dice.randrange(9)
        if kind < 2:
            self.call_back("shutter", number, 5)
        elif kind < 3:
            self.call_back("error", number, "request")
        elif kind < 4:
            self.call_back("error", number, "result")
        elif kind < 6:
            self.call_back("error", number, f"buffer:{stream}")
        elif kind < 7 and self.chance(15):
            self.call_back("error device")
        else:
            self.any_result(number, targets, [request.given for request in mine if request.given])

    def any_result(self, number, targets, given):
        some = self.dice.sample(targets, min(len(targets), self.dice.randint(0, 2)))
        buffers = [self.returned(target, self.dice.choice(["ok", "error"])) for target in some]
        entry = []
        if self.version == 2 and self.chance(20):
            entry = ["in:" + self.returned(self.dice.choice(given + [(0, 1, None)]), self.dice.choice(["ok", "error"]))]
        part = self.dice.choice([0, 0, 1, self.count, self.count + 1])
        pack = self.dice.choice(["metadata", "empty", "none"])
        self.call_back("result", number, "partial", part, pack, *buffers, *entry)

    # ---- the whole

    def may_begin(self):
        return not self.in_call or self.is_wild() or self.happens(self.crowd) or self.in_call == ["flush"]

    def step(self):
        if self.in_call and self.chance(45):
            self.end()
        elif self.chance(50) and self.may_begin():
            self.begin()
        else:
            self.callback()
        if self.chance(1) and "close" not in self.in_call and (not self.in_call or self.is_wild()):
            self.begin_close()

    def run(self):
        if self.chance(80):
            self.say("open begin")
            self.say("open end ok")
        while len(self.lines) < self.length:
            self.step()
        return [f"hal {self.version} {self.count}"] + self.lines


# ---- text


def damage(dice, lines):
    """One line that a reader refuses, or may refuse."""
    place = dice.randrange(len(lines))
    line = lines[place]
    words = line.split()
    spot = dice.randrange(len(words))
    lines[place] = dice.choice([
        " ".join(words[:-1]), line + " x", line.upper(), line.replace(" ", "\t", 1), line + "\xe9", "frobnicate 3",
        " ".join("0" + word if place == spot else word for place, word in enumerate(words)),
        " ".join("4294967296" if place == spot else word for place, word in enumerate(words)),
        line.replace("b", "", 1), line.replace(":", "::", 1), line.replace("ok", "okay"), "hal 1 1", "close end now",
        "request 4000000 end ok", "# a comment\twith a tab", line + " @5", line + " in:0:b1:-", line.replace("-", "*", 1),
        line.replace("in:", "", 1), line.replace("@", "", 1), line.replace("@", "@1", 1), line.replace("hal 2", "hal 1"),
        line + " input", "template 5 end ok",
    ])


def spell(dice, lines):
    """The text, now and then with comments, empty lines, more spaces, other ends; the last line may lack its end."""
    end = dice.choice(["\n", "\n", "\n", "\r\n"])
    text = ""
    for line in lines:
        if dice.random() < 0.02:
            text += dice.choice(["", "   ", "# a comment", "  #x 1"]) + end
        if dice.random() < 0.02:
            line = "  " + line.replace(" ", "   ") + " "
        text += line + end
    return text[:-len(end)] if dice.random() < 0.1 else text


def log_of(seed, version=None):
    """Where a version is named, one of that version."""
    lines = Play(seed, version).run()
    dice = random.Random(f"text {seed}")
    if dice.random() < 0.3:
        lines = lines[:dice.randint(1, len(lines))]
    if dice.random() < 0.1:
        damage(dice, lines)
    text = spell(dice, lines)
    if dice.random() < 0.03:
        text = text[:dice.randint(0, len(text))]
    return text.encode("latin-1")


def main(words):
    if len(words) != 1 or not words[0].isdecimal():
        print(__doc__, file=sys.stderr)
        return 2
    sys.stdout.buffer.write(log_of(int(words[0])))
    return 0


if __name__ == "__main__":
    sys.exit(main(sys.argv[1:]))

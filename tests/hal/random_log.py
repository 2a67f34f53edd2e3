#!/usr/bin/env python3
"""Writes the random hal log of a seed: a framework and a device that play together, more or less wildly.

usage: random_log.py SEED

A seed settles how wild both are: from none at all to where each choice is a wrong one as often as not. Calls and
callbacks interleave, several may be in call, numbers may lie at the ends of their ranges, numbers are begun again,
devices are opened anew; the log stops anywhere, and now and then a line is damaged, so that the log is refused.
"""
import random
import sys

TOP = 2**32 - 1
FORMATS = ["YUV", "IMPL", "BLOB", "RAW16", "H1", "HFFFFFFFF"]
ERRORS = ["EINVAL", "EINVAL", "EINVAL", "ENODEV", "EBUSY", "E1", "ABCDEFGHIJKLMNO"]


class Request:
    """A request that was begun: what of it the device still owes."""

    def __init__(self, number, targets, count):
        self.number = number
        self.targets = targets
        self.left = list(targets)
        self.parts = list(range(1, count + 1))
        self.has_shutter = False
        self.is_failed = False
        self.has_error = False

    @property
    def is_over(self):
        return not self.left and (not self.parts or self.is_failed)


class Play:
    """Both sides, and the lines that they made."""

    def __init__(self, seed):
        self.dice = random.Random(seed)
        self.wild = self.dice.choice([0, 0, 0.01, 0.03, 0.1, 0.3, 0.5])
        self.count = self.dice.choice([1, 1, 1, 2, 2, 3, 16])
        self.length = self.dice.choice([10, 40, 80, 150])
        # how often the device takes a later request first, leaves out a shutter or a notice, and tells errors
        self.disorder = self.dice.choice([0, 0, 0.3, 0.5])
        self.silence = self.dice.choice([0, 0, 0, 0.2])
        self.trouble = self.dice.choice([0, 0.04, 0.04, 0.2])
        self.lines = []
        self.in_call = []  # the calls that have begun, as the words before `end`
        self.fence = 0
        self.number = self.dice.choice([0, 0, 0, 1, 100, TOP - 12])
        self.streams_known = [0, 1, 2, self.dice.choice([3, TOP])]
        self.start_device()

    def start_device(self):
        self.is_initialized = False
        self.asked = []       # of the configure in call
        self.configured = []  # (stream, max_buffers)
        self.is_fresh = True
        self.requests = []

    # ---- choices

    def is_wild(self):
        return self.dice.random() < self.wild

    def chance(self, percent):
        return self.dice.random() * 100 < percent

    def say(self, *words):
        self.lines.append(" ".join(str(word) for word in words if word != ""))

    def any_number(self):
        near = [request.number for request in self.requests[-6:]] or [self.number]
        return self.dice.choice(near + near + [self.dice.choice(near) + 1, 0, TOP]) % (TOP + 1)

    def any_stream(self):
        return self.dice.choice(self.streams_known + [7])

    # ---- calls

    def begin(self):
        calls = ["request"] * 12 + ["flush"] * 2 + ["template", "configure"]
        if not self.is_initialized and not self.is_wild():
            calls = ["init"]
        elif not self.configured and not self.is_wild():
            calls = ["configure", "template"]
        if self.is_wild():
            calls = ["open", "init", "template", "configure", "request", "request", "flush", "close"]
        getattr(self, "begin_" + self.dice.choice(calls))()

    def begin_open(self):
        self.say("open begin")
        self.in_call.append("open")

    def begin_init(self):
        self.say("init begin")
        self.in_call.append("init")

    def begin_template(self):
        template = self.dice.choice([1, 2, 6, 6, 7, 0, TOP] if self.is_wild() else [1, 2, 3, 4, 5, 6])
        self.say("template", template, "begin")
        self.in_call.append(f"template {template}")

    def begin_flush(self):
        self.say("flush begin")
        self.in_call.append("flush")

    def begin_close(self):
        self.say("close begin")
        self.in_call.append("close")

    def begin_configure(self):
        if any(not request.is_over for request in self.requests) and not self.is_wild():
            return self.callback()
        streams = self.dice.sample(self.streams_known, self.dice.randint(1, 3))
        if self.is_wild():
            streams = [self.any_stream() for _ in range(self.dice.choice([0, 1, 2, 16]))]
        self.asked = streams
        kinds = ["", "", "", ":in", ":bidi"] if self.is_wild() else [""]
        mode = f"mode:{self.dice.choice([1, TOP])}" if self.chance(5) else ""
        self.say("configure begin", mode, *[self.stream_words(stream, kinds) for stream in streams])
        self.in_call.append("configure")

    def stream_words(self, stream, kinds):
        rotation = f":r{self.dice.choice([90, 180, 270, TOP])}" if self.chance(5) else ""
        size = self.dice.choice(["640x480", "1x1", f"{TOP}x{TOP}"])
        return f"{stream}:{self.dice.choice(FORMATS)}x{size}{rotation}{self.dice.choice(kinds)}"

    def held(self):
        return {target[1] for request in self.requests for target in request.left}

    def begin_request(self):
        if "request" in " ".join(self.in_call) and not self.is_wild():
            return self.callback()
        targets = self.pick_targets()
        if not targets and not self.is_wild():
            return self.callback()
        number = self.number
        if self.is_wild():
            number = self.any_number()
        else:
            self.number = min(TOP, self.number + self.dice.choice([1, 1, 1, 1, 2]))
        is_same = not self.is_fresh if not self.is_wild() else self.chance(50)
        odd = [word for word in ("nohandle", "badsettings") if self.is_wild()]
        fields = [f"{stream}:b{buffer}:{'-' if fence is None else fence}" for stream, buffer, fence in targets]
        self.say("request", number, "begin", "same" if is_same else "settings", *fields, *odd)
        self.requests.append(Request(number, targets, self.count))
        self.in_call.append(f"request {number}")

    def pick_targets(self):
        streams = [stream for stream, _ in self.configured if self.chance(70)]
        if self.is_wild():
            streams = [self.any_stream() for _ in range(self.dice.choice([0, 1, 2, 2, 3, 16]))]
        held, targets = self.held(), []
        for stream in streams:
            most = dict(self.configured).get(stream, 4)
            own = [buffer for buffer in held if buffer // 10 == stream % 10]
            if len(own) >= most and not self.is_wild():
                continue
            free = [stream % 10 * 10 + place for place in range(10) if stream % 10 * 10 + place not in held]
            buffer = self.dice.choice(free) if free and not self.is_wild() else self.dice.choice([1, 2, 11, 12, TOP])
            self.fence += 1
            targets.append((stream, buffer, self.fence if self.chance(40) else None))
        return targets

    def end(self):
        call = self.dice.choice(self.in_call)
        name = call.split()[0]
        if name in ("flush", "close") and not self.is_wild():
            self.finish()
        if not self.is_wild() or self.chance(80):
            self.in_call.remove(call)
        if name == "close":
            return self.end_close()
        if name == "template":
            return self.say(call, "end", "null" if self.chance(5) and self.is_wild() else "ok")
        if self.is_wild() and self.chance(60):
            return self.end_badly(call)
        self.say(call, "end ok", *self.end_words(name))
        getattr(self, "ended_" + name, lambda *_: None)(call)
        return None

    def finish(self):
        """What a flush or a close waits for."""
        for request in self.requests:
            if not request.is_over and not request.has_shutter and not request.has_error:
                self.fail(request)
            while not request.is_over:
                self.give(request)

    def end_words(self, name):
        if name != "configure":
            return []
        most = [(stream, self.dice.choice([1, 2, 3, 4])) for stream in self.asked]
        if self.is_wild():
            most = [(stream, self.dice.choice([0, 1, TOP])) for stream in self.asked if self.chance(80)]
            most += [(self.any_stream(), 2)] if self.chance(20) else []
        self.configured, self.is_fresh = most[:16], True
        return [f"{stream}:{number}" for stream, number in self.configured]

    def end_badly(self, call):
        self.say(call, "end error", self.dice.choice(ERRORS))
        for request in self.requests:
            if call == f"request {request.number}":
                request.left, request.parts = [], []

    def end_close(self):
        self.say("close end")
        self.start_device()
        self.forget_calls()
        if not self.is_wild():
            self.say("open begin")
            self.say("open end ok")

    def ended_open(self, _):
        self.start_device()
        self.forget_calls()

    def forget_calls(self):
        """What was in call at the device before; seldom one of them returns all the same."""
        self.in_call = [call for call in self.in_call if self.is_wild()]

    def ended_init(self, _):
        self.is_initialized = True

    def ended_request(self, _):
        self.is_fresh = False

    # ---- callbacks

    def callback(self):
        open_requests = [request for request in self.requests if not request.is_over]
        if self.is_wild() or not open_requests:
            if self.is_wild():
                self.any_callback()
            return
        request = self.dice.choice(open_requests if self.dice.random() < self.disorder else open_requests[:1])
        if self.dice.random() < self.trouble and not request.has_shutter and not request.has_error:
            self.fail(request)
        elif self.dice.random() < self.trouble and request.parts and not request.has_error:
            request.has_error = True
            self.say("error", request.number, "result")
        elif not request.has_shutter:
            request.has_shutter = True
            if self.dice.random() >= self.silence:
                self.say("shutter", request.number, self.dice.choice([0, 1000, 2**64 - 1]))
        else:
            self.give(request)

    def fail(self, request):
        self.say("error", request.number, "request")
        request.is_failed = True
        buffers = [self.returned(target, "error") for target in request.left]
        request.left, request.parts = [], []
        if buffers:
            pack = self.dice.choice([(0, "none"), (self.count, "empty")])
            self.say("result", request.number, "partial", *pack, *buffers)

    def returned(self, target, status):
        stream, buffer, fence = target
        release = "-" if fence is None or status == "ok" or self.chance(50) else fence
        if self.is_wild():
            release = self.dice.choice(["?", 0, self.fence])
            status = self.dice.choice(["ok", "error", "error", "?"])
            stream = self.dice.choice([stream, stream, self.any_stream(), "?"])
            buffer = self.dice.choice([buffer, buffer, buffer, 1, "?"])
        odd = ":acquire" if self.is_wild() and self.chance(30) else ""
        return f"{stream}:b{buffer}:{status}:{release}{odd}"

    def give(self, request):
        number, pack, buffers = 0, "none", []
        if request.parts and (self.chance(60) or not request.left):
            number, pack = request.parts.pop(0), "metadata"
        while request.left and (self.chance(50) or pack == "none"):
            target = request.left.pop(0)
            status = "error" if self.dice.random() < self.trouble else "ok"
            if status == "error" and self.dice.random() >= self.silence:
                self.say("error", request.number, f"buffer:{target[0]}")
            buffers.append(self.returned(target, status))
            if pack == "none":
                break
        if self.is_wild():
            number = self.dice.choice([0, 1, self.count, self.count + 1, TOP])
        if self.is_wild():
            pack = self.dice.choice(["metadata", "empty", "none"])
        self.say("result", request.number, "partial", number, pack, *buffers, "input" if self.chance(2) else "")

    def any_callback(self):
        number = self.any_number()
        targets = [target for request in self.requests if request.number == number for target in request.targets]
        stream = self.dice.choice([target[0] for target in targets] + [self.any_stream(), "?"])
        kind = self.dice.randrange(9)
        if kind < 2:
            self.say("shutter", number, 5)
        elif kind < 3:
            self.say("error", number, "request")
        elif kind < 4:
            self.say("error", number, "result")
        elif kind < 6:
            self.say("error", number, f"buffer:{stream}")
        elif kind < 7 and self.chance(15):
            self.say("error device")
        else:
            some = self.dice.sample(targets, min(len(targets), self.dice.randint(0, 2)))
            buffers = [self.returned(target, self.dice.choice(["ok", "error"])) for target in some]
            part = self.dice.choice([0, 0, 1, self.count, self.count + 1])
            self.say("result", number, "partial", part, self.dice.choice(["metadata", "empty", "none"]), *buffers)

    # ---- the whole

    def step(self):
        if self.in_call and self.chance(45):
            self.end()
        elif self.chance(50) and (len(self.in_call) < 1 or self.is_wild() or self.in_call == ["flush"]):
            self.begin()
        else:
            self.callback()
        if self.chance(1) and "close" not in self.in_call and (not self.in_call or self.is_wild()):
            self.begin_close()

    def run(self):
        if self.chance(80):
            self.say("open begin")
            self.say("open end ok")
        while len(self.lines) < self.length:
            self.step()
        return [f"hal 1 {self.count}"] + self.lines


# ---- text


def damage(dice, lines):
    """One line that a reader refuses, or may refuse."""
    place = dice.randrange(len(lines))
    line = lines[place]
    words = line.split()
    spot = dice.randrange(len(words))
    lines[place] = dice.choice([
        " ".join(words[:-1]), line + " x", line.upper(), line.replace(" ", "\t", 1), line + "\xe9", "frobnicate 3",
        " ".join("0" + word if place == spot else word for place, word in enumerate(words)),
        " ".join("4294967296" if place == spot else word for place, word in enumerate(words)),
        line.replace("b", "", 1), line.replace(":", "::", 1), line.replace("ok", "okay"), "hal 1 1", "close end now",
        "request 4000000 end ok", "# a comment\twith a tab",
    ])


def spell(dice, lines):
    """The text, now and then with comments, empty lines, more spaces, other ends; the last line may lack its end."""
    end = dice.choice(["\n", "\n", "\n", "\r\n"])
    text = ""
    for line in lines:
        if dice.random() < 0.02:
            text += dice.choice(["", "   ", "# a comment", "  #x 1"]) + end
        if dice.random() < 0.02:
            line = "  " + line.replace(" ", "   ") + " "
        text += line + end
    return text[:-len(end)] if dice.random() < 0.1 else text


def log_of(seed):
    lines = Play(seed).run()
    dice = random.Random(f"text {seed}")
    if dice.random() < 0.3:
        lines = lines[:dice.randint(1, len(lines))]
    if dice.random() < 0.1:
        damage(dice, lines)
    text = spell(dice, lines)
    if dice.random() < 0.03:
        text = text[:dice.randint(0, len(text))]
    return text.encode("latin-1")


def main(words):
    if len(words) != 1 or not words[0].isdecimal():
        print(__doc__, file=sys.stderr)
        return 2
    sys.stdout.buffer.write(log_of(int(words[0])))
    return 0


if __name__ == "__main__":
    sys.exit(main(sys.argv[1:]))

"""What `logical` has to write, worked out from docs/FORMATS.md and docs/CONTRACT.md alone.

`text_of(script)` gives the whole text for a logical script whose lines are well formed: two cameras that keep the rules
of docs/CONTRACT.md, What each entry needs, each taking the candidate that the picks name (docs/FORMATS.md, Picks and
candidates, Logical camera). Nothing of it comes from the program: not the order of steps, not a picture, not a packed
part. tests/logical/run holds the program against it.
"""
import collections
import hashlib
import struct

DEPTH, MOST_AT_DEVICE = 6, {"raw16": 3, "yuv": 4}
TEMPLATES = {"preview": (2, 128, 10_000_000, 100), "still": (1, 200, 20_000_000, 100)}
WAITING = {"configure", "wait", "flush", "close", "disconnect"}
STOPPING = {"flush", "disconnect"}

# ---- docs/FORMATS.md, Metadata and Pictures


def packed(values):
    """Returns the hexadecimal text of a list of (tag, type, value), type 0 of one byte, 1 of four and 3 of eight."""
    entries, area = b"", b""
    for tag, kind, value in values:
        if kind == 3:
            entries += struct.pack("<IIIB3x", tag, 1, len(area), kind)
            area += struct.pack("<q", value)
        else:
            entries += struct.pack("<IIIB3x", tag, 1, value, kind)
    whole = 16 + len(entries) + len(area)
    return (struct.pack("<IIII", 1, len(values), len(area), whole) + entries + area).hex()


def part_text(number, settings, time):
    pattern, level, exposure, iso = settings
    if number == 1:
        return packed([(0x80000000, 0, pattern), (0x80000001, 1, level)])
    if number == 2:
        return packed([(0x80000002, 3, exposure), (0x80000003, 1, iso)])
    return packed([(0x80000004, 3, time)])


def scene(settings, frame, x, y, channel):
    pattern, level = settings[0], settings[1]
    if pattern == 0:
        return level
    if pattern == 1:  # white, yellow, cyan, green, magenta, red, blue, black: (red, green, blue)
        bars = [(1, 1, 1), (1, 1, 0), (0, 1, 1), (0, 1, 0), (1, 0, 1), (1, 0, 0), (0, 0, 1), (0, 0, 0)]
        return level if bars[x // 20][channel] else 0
    return (x + y + frame) % 256


def sensor(settings, frame):
    """Returns the readout, rows of values."""
    exposure, iso = settings[2], settings[3]

    def value(x, y):
        channel = 0 if x % 2 == 0 and y % 2 == 0 else 2 if x % 2 == 1 and y % 2 == 1 else 1
        return 64 + min(959, scene(settings, frame, x, y, channel) * (exposure // 100_000) * iso // 2_500)

    return [[value(x, y) for x in range(160)] for y in range(120)]


PICTURES = {}


def digest(spec, settings, frame):
    """Returns the SHA-256 of a picture, in hexadecimal."""
    key = (spec, settings, frame % 256 if settings[0] == 2 else 0)
    if key in PICTURES:
        return PICTURES[key]
    rows = sensor(settings, frame)
    kind, size = spec.split(":")
    if kind == "raw16":
        data = b"".join(struct.pack("<160H", *row) for row in rows)
    else:
        width, height = map(int, size.split("x"))

        def cell(place_x, place_y):
            x, y = place_x * 160 // width // 2 * 2, place_y * 120 // height // 2 * 2
            green = (rows[y][x + 1] + rows[y + 1][x]) // 2
            return [(value - 64) * 255 // 959 for value in (rows[y][x], green, rows[y + 1][x + 1])]

        cells = [[cell(x, y) for x in range(width)] for y in range(height)]
        luma = bytes((66 * r + 129 * g + 25 * b + 128) // 256 + 16 for row in cells for r, g, b in row)
        half = [cells[2 * j][2 * i] for j in range(height // 2) for i in range(width // 2)]
        blue = bytes((32896 - 38 * r - 74 * g + 112 * b) // 256 for r, g, b in half)
        red = bytes((32896 + 112 * r - 94 * g - 18 * b) // 256 for r, g, b in half)
        data = luma + blue + red
    PICTURES[key] = hashlib.sha256(data).hexdigest()
    return PICTURES[key]


# ---- a script


class Item:
    def __init__(self, word):
        settings, targets = word.split("@")
        self.settings = TEMPLATES.get(settings) or tuple(map(int, settings.split(",")))
        self.targets = [] if targets == "-" else list(map(int, targets.split("+")))


class Script:
    def __init__(self, text):
        self.picks, self.faults, self.commands = [], set(), []
        for line in text.splitlines()[1:]:
            word, *rest = line.split()
            if word == "pick":
                self.picks += map(int, rest)
            elif word == "fault":
                self.faults.add((rest[0], *map(int, rest[1:])))
            else:
                self.commands.append((word, rest if word == "configure" else [Item(item) for item in rest]))
        if not any(word in ("close", "disconnect") for word, _ in self.commands):
            self.commands.append(("close", []))


class Frame:
    """What happened to a frame since it was sent."""

    def __init__(self, number, item, targets, specs):
        self.number, self.settings, self.targets = number, item.settings, targets
        self.specs = {stream: specs[stream] for stream, _, _ in targets}
        self.stopped = self.sensor_done = self.error_request = self.error_result = False
        self.time, self.parts = None, 0
        self.error_buffers, self.returned, self.good, self.taken, self.filled = set(), set(), set(), set(), set()

    def metadata_ended(self):
        return self.parts == 3 or self.error_request or self.error_result

    def is_open(self):
        return not (self.metadata_ended() and len(self.returned) == len(self.targets))

    def has_something(self):
        return self.parts > 0 or bool(self.returned) or self.has_error()

    def has_error(self):
        return self.error_request or self.error_result or bool(self.error_buffers)

    def fill_is_out(self, stream):
        return stream in self.taken and stream not in self.filled

    def sensor_is_out(self):
        return self.time is not None and not self.sensor_done

    def readout_is_home(self):
        return self.sensor_done and not any(self.fill_is_out(stream) for stream, _, _ in self.targets)

    def holds_back(self, stream):
        """Whether later buffers of the stream wait for this frame's."""
        if all(stream != target for target, _, _ in self.targets):
            return False
        return not (stream in self.returned or stream in self.error_buffers or self.error_request)


class Camera:
    """One camera: what it did, and the steps that are ready."""

    def __init__(self, script, faults):
        self.commands, self.faults = script.commands, faults
        self.called, self.begun, self.closed, self.requests = 0, None, False, 0
        self.specs, self.made, self.made_count = [], [], 0
        self.queue, self.numbers = collections.deque(), 0
        self.frames, self.dropped, self.last_settings, self.last_shutter = {}, set(), None, None
        self.place, self.fence, self.fences, self.signalled = {}, {}, 0, set()

    # ---- what the rules ask

    def has(self, *fault):
        return fault in self.faults

    def is_stopping(self):
        return self.begun in STOPPING

    def open_frames(self):
        return [frame for frame in self.frames.values() if frame.is_open()]

    def earlier(self, frame):
        return [other for other in self.frames.values() if other.number < frame.number]

    def is_passed(self, fence):
        return fence is None or fence in self.signalled

    def is_sound(self, frame, stream):
        return not (self.has("request", frame.number) or self.has("buffer", frame.number, stream)
                    or frame.error_request or stream in frame.error_buffers)

    def is_complete(self):
        return (self.called == len(self.commands) and not self.open_frames() and not self.queue
                and all(where == "pool" for where in self.place.values()) and len(self.signalled) == self.fences)

    def is_idle(self):
        return not self.open_frames() and not self.queue

    def is_all_home(self):
        return all(self.place[buffer] == "pool" for first, count in self.made for buffer in range(first, first + count))

    # ---- replies

    def refusal(self, word, items):
        if self.closed:
            return "2"
        if word in ("close", "disconnect"):
            return None
        if word != "configure" and not self.made:
            return "1"
        if word in ("once", "burst"):
            if not items:
                return "4"
            for place, item in enumerate(items):
                for stream in item.targets:
                    if stream >= len(self.specs):
                        return f"6 {place} {stream}"
        return None

    def reply(self, word, rest):
        refused = self.refusal(word, rest)
        if refused:
            return f"refused {refused}"
        if word == "configure":
            texts, first = [], self.made_count
            for stream, spec in enumerate(rest):
                count = MOST_AT_DEVICE[spec.split(":")[0]] + 2
                texts.append(f"{stream}:b{first}+{count}")
                first += count
            return "ok " + " ".join(texts)
        return f"ok r{self.requests}" if word in ("once", "burst") else "ok"

    def is_over(self, word):
        if word in STOPPING:
            return self.is_idle()
        return self.is_idle() and self.is_all_home() if word in WAITING else True

    # ---- the steps that are ready, in the order of candidates: what each does, which answers its line or None

    def candidates(self):
        frames = [self.frames[number] for number in sorted(self.frames)]
        targets = [(frame, stream, buffer, fence) for frame in frames for stream, buffer, fence in frame.targets]
        ready = []
        for kind in (self.sends, self.releases, self.signals, self.client, self.drops):
            ready += kind()
        ready += [step for frame in frames for step in self.errors(frame)]
        ready += [step for target in targets for step in self.failed(*target)]
        ready += self.shutters()
        ready += [lambda frame=frame: self.end_exposure(frame) for frame in frames if frame.sensor_is_out()]
        ready += [step for frame in frames for step in self.partials(frame)]
        ready += [step for target in targets for step in self.takes(*target)]
        ready += [lambda frame=frame, stream=stream: self.end_fill(frame, stream)
                  for frame, stream, _, _ in targets if frame.fill_is_out(stream)]
        ready += [step for target in targets for step in self.deliveries(*target)]
        return ready

    def sends(self):
        if not self.queue or self.is_stopping() or len(self.open_frames()) >= DEPTH:
            return []
        request, place, item = self.queue[0]
        targets = []
        for stream in sorted(item.targets):
            first, count = self.made[stream]
            buffers = range(first, first + count)
            if sum(self.place[b] == "device" for b in buffers) >= MOST_AT_DEVICE[self.specs[stream].split(":")[0]]:
                return []
            home = [b for b in buffers if self.place[b] == "pool"]
            if not home:
                return []
            targets.append((stream, home[0], self.fence.get(home[0])))
        return [lambda: self.send(request, place, item, targets)]

    def send(self, request, place, item, targets):
        self.queue.popleft()
        number, self.numbers = self.numbers, self.numbers + 1
        mark = "same" if self.last_settings == item.settings else "new"
        self.last_settings = item.settings
        self.frames[number] = Frame(number, item, targets, self.specs)
        for _, buffer, _ in targets:
            self.place[buffer] = "device"
        texts = [f"{stream}:b{buffer}:{fence_text(fence)}" for stream, buffer, fence in targets]
        return " ".join([f"send {number} r{request}.{place} {mark}", *texts])

    def releases(self):
        return [lambda buffer=buffer: self.release(buffer)
                for buffer in sorted(self.place) if self.place[buffer] == "client"]

    def release(self, buffer):
        self.place[buffer], self.fence[buffer] = "pool", self.fences
        self.fences += 1
        return f"release b{buffer} f{self.fences - 1}"

    def signals(self):
        return [lambda fence=fence: self.signal(fence) for fence in range(self.fences) if fence not in self.signalled]

    def signal(self, fence):
        self.signalled.add(fence)
        return f"signal f{fence}"

    def client(self):
        if self.called == len(self.commands):
            return []
        word, rest = self.commands[self.called]
        if word in WAITING and self.begun is None:
            return [lambda: self.begin(word)]
        if self.refusal(word, rest) or self.is_over(word):
            return [lambda: self.call(word, rest)]
        return []

    def begin(self, word):
        self.begun = word
        if word in STOPPING:
            for frame in self.frames.values():
                frame.stopped = True
        return f"begin {word}"

    def call(self, word, rest):
        reply = self.reply(word, rest)
        place, self.called, self.begun = self.called, self.called + 1, None
        if reply.startswith("ok"):
            if word == "configure":
                self.configure(rest)
            elif word in ("once", "burst"):
                self.queue += [(self.requests, index, item) for index, item in enumerate(rest)]
                self.requests += 1
            elif word in ("close", "disconnect"):
                self.closed = True
        return f"call {place} {word} = {reply}"

    def configure(self, specs):
        self.specs, self.made, self.last_settings = specs, [], None
        self.place, self.fence = {}, {}
        for spec in specs:
            count = MOST_AT_DEVICE[spec.split(":")[0]] + 2
            self.made.append((self.made_count, count))
            self.place.update((self.made_count + at, "pool") for at in range(count))
            self.made_count += count

    def drops(self):
        return [self.drop] if self.is_stopping() and self.queue else []

    def drop(self):
        request, place, _ = self.queue.popleft()
        self.dropped.add(self.numbers)
        self.numbers += 1
        return f"drop {self.numbers - 1} r{request}.{place}"

    def errors(self, frame):
        cut_short = frame.stopped and frame.has_something()
        in_part = frame.time is not None and (not self.has("request", frame.number) or frame.stopped)
        if frame.is_open() and not frame.has_something() and (
                self.has("request", frame.number) and frame.time is not None or frame.stopped):
            return [lambda: self.fail_request(frame)]
        if in_part and not frame.metadata_ended() and all(other.metadata_ended() for other in self.earlier(frame)) and (
                self.has("result", frame.number) or cut_short):
            return [lambda: self.fail_result(frame)]
        for stream, _, _ in frame.targets:
            if in_part and not frame.error_request and stream not in frame.error_buffers | frame.returned and (
                    self.has("buffer", frame.number, stream) or cut_short):
                return [lambda: self.fail_buffer(frame, stream)]
        return []

    def fail_request(self, frame):
        frame.error_request = True
        return f"error request {frame.number}"

    def fail_result(self, frame):
        frame.error_result = True
        return f"error result {frame.number}"

    def fail_buffer(self, frame, stream):
        frame.error_buffers.add(stream)
        return f"error buffer {frame.number} {stream}"

    def failed(self, frame, stream, buffer, fence):
        told = frame.error_request or stream in frame.error_buffers
        if stream in frame.returned or not told or frame.sensor_is_out() or frame.fill_is_out(stream):
            return []
        return [lambda: self.give_back(frame, stream, buffer, fence)]

    def give_back(self, frame, stream, buffer, fence):
        frame.returned.add(stream)
        left = None if self.is_passed(fence) else fence
        self.place[buffer], self.fence[buffer] = "pool", left
        return f"buffer {frame.number} {stream} b{buffer} error {fence_text(left)}"

    def shutters(self):
        if self.is_stopping():
            return []
        for frame in self.frames.values():
            if frame.time is None and not frame.has_error() and all(
                    other.time is not None or other.error_request for other in self.earlier(frame)):
                return [lambda: self.expose(frame)]
        return []

    def expose(self, frame):
        last = self.last_shutter
        frame.time = 1_000_000_000 if last is None else last.time + max(33_333_333, last.settings[2])
        self.last_shutter = frame
        return f"shutter {frame.number} {frame.time}"

    def end_exposure(self, frame):
        frame.sensor_done = True

    def partials(self, frame):
        kept_back = frame.error_request or frame.error_result or self.has("request", frame.number)
        if frame.time is None or kept_back or frame.parts == 3:
            return []
        if frame.parts == 2 and (self.has("result", frame.number)
                                 or not all(other.metadata_ended() for other in self.earlier(frame))):
            return []
        return [lambda: self.partial(frame)]

    def partial(self, frame):
        frame.parts += 1
        return f"partial {frame.number} {frame.parts} {part_text(frame.parts, frame.settings, frame.time)}"

    def takes(self, frame, stream, _, fence):
        if frame.is_open() and self.is_sound(frame, stream) and stream not in frame.returned | frame.taken and (
                frame.readout_is_home() and self.is_passed(fence)):
            return [lambda: frame.taken.add(stream)]
        return []

    def end_fill(self, frame, stream):
        frame.filled.add(stream)

    def deliveries(self, frame, stream, buffer, fence):
        if stream in frame.filled and stream not in frame.returned and self.is_sound(frame, stream) and (
                self.is_passed(fence) and not any(other.holds_back(stream) for other in self.earlier(frame))):
            return [lambda: self.deliver(frame, stream, buffer)]
        return []

    def deliver(self, frame, stream, buffer):
        frame.returned.add(stream)
        frame.good.add(stream)
        self.place[buffer] = "client"
        return f"buffer {frame.number} {stream} b{buffer} ok - {digest(frame.specs[stream], frame.settings, frame.number)}"

    # ---- how a frame ended

    def ended(self):
        return self.dropped | {frame.number for frame in self.frames.values() if not frame.is_open()}

    def is_whole(self, number):
        frame = self.frames.get(number)
        return frame is not None and frame.parts == 3 and len(frame.good) == len(frame.targets)


def fence_text(fence):
    return "-" if fence is None else f"f{fence}"


def text_of(script_text):
    """Returns the text that `logical` has to write for a logical script."""
    script = Script(script_text)
    cameras = [Camera(script, script.faults), Camera(script, set())]
    lines, told, turn = ["logical 1"], set(), 0
    while not all(camera.is_complete() for camera in cameras):
        pick = script.picks[turn] if turn < len(script.picks) else 0
        turn += 1
        named = pick % 2
        if cameras[named].is_complete():
            named = 1 - named
        ready = cameras[named].candidates()
        line = ready[pick // 2 % len(ready)]()
        if line:
            lines.append(f"{named} {line}")
        for number in sorted(cameras[0].ended() & cameras[1].ended() - told):
            told.add(number)
            if all(camera.is_whole(number) for camera in cameras):
                lines.append(f"logical {number} ok")
            elif all(number in camera.dropped for camera in cameras):
                lines.append(f"logical {number} drop")
            else:
                lines.append(f"logical {number} error")
    return "\n".join(lines + ["end", ""])

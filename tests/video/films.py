#!/usr/bin/env python3
"""Holds what `video` and `picture` write against the worked rows of tests/rows whose word is `play`.

Of each such row the trace is read, as it stands in tests/rows. For each stream of it, from 0 on and one further, the
film is split into its pictures, and the SHA-256 of each picture's planes is compared with the digest of the trace's
line, in the order of these lines: `buffer N S bB ok`, and for a buffer that came back early its `filled`. PGM has the
high byte of a sample first and RAW16 the low one, so the bytes are exchanged here before they are hashed. The first and
the last good frame of each stream are asked for as a picture too: a PGM picture is hashed, and of a PPM picture each
place is computed again by docs/FORMATS.md, Pictures and films, from the planes of the film. What can't be shown is to
be refused by its line, with status 1.

Looked at once, by hand, of the row preview_with_stills: the film of stream 0 (`ffmpeg -i x.y4m ramp%02d.png`, which
read it as 80x60, yuv420p, 30 frames a second) is a grey ramp whose edge from white back to black comes in from the
lower right as the frames go on; that of stream 2 has the eight bars in their order and colours, with black at 0. The
PPM picture has the same bars, and paler: black is 16 and white 235, as docs/FORMATS.md says. The PGM pictures of
stream 1 (`ffmpeg -f image2pipe -c:v pgm -i x.pgm film%02d.png`) are the mosaic of the bars.

usage: films.py PROGRAM ..      the program, with the words that stand before `video` and `picture`
"""
import hashlib
import subprocess
import sys
from pathlib import Path

ROWS = Path(__file__).resolve().parent.parent / "rows"
PGM_HEAD = b"P5\n160 120\n1023\n"


class Trace:
    """What a trace tells of buffers: the streams of each configuration, and the good and the failed ones."""

    def __init__(self, script, lines):
        self.specs = []
        self.good = []
        self.failed = set()
        self.sent = {}
        self.current = []
        commands = [line.split() for line in script.splitlines()]
        commands = [words for words in commands if words and words[0] in COMMANDS]
        early = {}
        for line in lines:
            words = line.split()
            if words[0] == "call" and words[2] == "configure" and words[4] == "ok":
                self.current = commands[int(words[1])][1:]
                self.specs.append(self.current)
            elif words[0] == "send":
                self.sent[int(words[1])] = {int(target.split(":")[0]) for target in words[4:]}
            elif words[0] == "buffer" and words[4] == "ok":
                self.put(int(words[1]), int(words[2]), words[6])
            elif words[0] == "buffer":
                self.failed.add((int(words[1]), int(words[2])))
            elif words[0] == "early":
                early[words[4]] = (int(words[1]), int(words[2]))
            elif words[0] == "filled":
                self.put(*early[words[1]], words[2])

    def put(self, frame, stream, digest):
        self.good.append((frame, stream, self.current[stream], digest))

    def of(self, stream):
        return [(frame, spec, digest) for frame, of, spec, digest in self.good if of == stream]

    def has_stream(self, stream):
        return any(stream < len(specs) for specs in self.specs)

    def cause(self, frame, stream):
        """Why a frame has no picture for a stream."""
        if not self.has_stream(stream):
            return 71
        if frame not in self.sent:
            return 72
        return 74 if stream in self.sent[frame] else 73


COMMANDS = set("configure once burst repeat stop wait await flush close disconnect".split())


def size_of(spec):
    kind, size = spec.split(":")
    width, height = size.split("x")
    return kind, int(width), int(height)


def exchanged(data):
    out = bytearray(data)
    out[0::2], out[1::2] = data[1::2], data[0::2]
    return bytes(out)


def pictures_of(film, spec):
    """The pictures of a film, as the buffers show them."""
    kind, width, height = size_of(spec)
    if kind == "raw16":
        each = len(PGM_HEAD) + 2 * width * height
        parts = [film[at:at + each] for at in range(0, len(film), each)]
        if any(len(part) != each or not part.startswith(PGM_HEAD) for part in parts):
            raise ValueError("a PGM picture is cut or has another head")
        return [exchanged(part[len(PGM_HEAD):]) for part in parts]
    head = b"YUV4MPEG2 W%d H%d F30:1 Ip A1:1 C420jpeg\n" % (width, height)
    if not film.startswith(head):
        raise ValueError(f"the head is {film[:80]!r}")
    film = film[len(head):]
    each = 6 + width * height * 3 // 2
    parts = [film[at:at + each] for at in range(0, len(film), each)]
    if any(len(part) != each or not part.startswith(b"FRAME\n") for part in parts):
        raise ValueError("a frame is cut or has another head")
    return [part[6:] for part in parts]


def byte(value):
    return max(0, min(255, value >> 8))


def ppm_of(picture, width, height):
    """The PPM picture by the full-range formula of BT.601, place by place."""
    planes, quarter = width * height, width * height // 4
    out = bytearray(b"P6\n%d %d\n255\n" % (width, height))
    for y in range(height):
        for x in range(width):
            cell = y // 2 * (width // 2) + x // 2
            luma = 256 * picture[y * width + x] + 128
            blue = picture[planes + cell] - 128
            red = picture[planes + quarter + cell] - 128
            out += bytes((byte(luma + 359 * red), byte(luma - 88 * blue - 183 * red), byte(luma + 454 * blue)))
    return bytes(out)


class Runner:
    def __init__(self, program):
        self.program = program
        self.passed = 0
        self.failed = 0

    def ask(self, script, *words):
        ran = subprocess.run(self.program + [str(word) for word in words], input=script, stdout=subprocess.PIPE,
                             check=False)
        return ran.returncode, ran.stdout

    def want(self, label, is_so, what):
        if is_so:
            self.passed += 1
        else:
            self.failed += 1
            print(f"{label}: {what}")

    def refused(self, label, script, words, line):
        status, text = self.ask(script, *words)
        self.want(label, (status, text) == (1, line), f"status {status}, {text[:80]!r}; wanted {line!r}")

    def film(self, label, script, trace, stream):
        """A film's pictures, where it has one that is right."""
        wanted = trace.of(stream)
        line = b"refused video %d " % stream
        if not trace.has_stream(stream):
            return self.refused(label, script, ("video", stream), line + b"71\n")
        if not wanted:
            return self.refused(label, script, ("video", stream), line + b"75\n")
        if len({spec for _, spec, _ in wanted}) > 1:
            return self.refused(label, script, ("video", stream), line + b"76\n")
        status, film = self.ask(script, "video", stream)
        try:
            pictures = pictures_of(film, wanted[0][1])
        except ValueError as error:
            return self.want(label, False, f"status {status}, {error}")
        digests = [hashlib.sha256(picture).hexdigest() for picture in pictures]
        self.want(label, status == 0 and digests == [digest for _, _, digest in wanted],
                  f"status {status}, {len(digests)} pictures of {len(wanted)}, or another digest")
        return pictures

    def picture(self, label, script, picture, place):
        """The file of a picture that a film has."""
        frame, stream, spec = place
        kind, width, height = size_of(spec)
        status, file = self.ask(script, "picture", frame, stream)
        wanted = PGM_HEAD + exchanged(picture) if kind == "raw16" else ppm_of(picture, width, height)
        self.want(f"{label}, picture {frame} {stream}", (status, file) == (0, wanted),
                  f"status {status}, {len(file)} bytes, of {len(wanted)}")

    def row(self, name):
        script = (ROWS / f"{name}.stdin").read_bytes()
        lines = (ROWS / f"{name}.stdout").read_text("ascii").splitlines()
        if not lines or not lines[0].startswith("trace "):
            status, text = self.ask(script, "video", 0)
            return self.want(f"{name}, refused", (status, text) == (1, (ROWS / f"{name}.stdout").read_bytes()),
                             f"status {status}, {text[:80]!r}")
        trace = Trace(script.decode("ascii"), lines[1:-1])
        most = max([len(specs) for specs in trace.specs] or [0])
        for stream in range(most + 1):
            pictures = self.film(f"{name}, video {stream}", script, trace, stream)
            good = trace.of(stream)
            for at in sorted({0, len(good) - 1}) if pictures else []:
                self.picture(name, script, pictures[at], (good[at][0], stream, good[at][1]))
        self.without(name, script, trace, most)

    def without(self, name, script, trace, most):
        """Frames that have no picture: the first of each cause."""
        good = {(frame, stream) for frame, stream, _, _ in trace.good}
        frames = sorted(trace.sent) + [max(trace.sent, default=-1) + 1, 4294967295]
        told = set()
        for frame in frames:
            for stream in list(range(most + 1)) + [255]:
                cause = trace.cause(frame, stream)
                if (frame, stream) not in good and cause not in told:
                    told.add(cause)
                    self.refused(f"{name}, picture {frame} {stream}", script, ("picture", frame, stream),
                                 b"refused picture %d %d %d\n" % (frame, stream, cause))


def main(program):
    runner = Runner(program)
    for args in sorted(ROWS.glob("*.args")):
        if args.read_text("ascii").split() == ["play"] and args.with_suffix(".stdout").exists():
            runner.row(args.stem)
    print(f"{runner.passed} passed, {runner.failed} failed")
    return 1 if runner.failed or not runner.passed else 0


if __name__ == "__main__":
    sys.exit(main(sys.argv[1:]))

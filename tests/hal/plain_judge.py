#!/usr/bin/env python3
"""A judge of hal logs, by the definitions: each rule is a condition on an event and its past, and each word is
recomputed over that past. It is slow, and independent of the program, whose judge is held against it.

usage: plain_judge.py [--plain] [--strict] < LOG
       plain_judge.py [--strict] LOG ..              the same of each, its name before each line

Writes a line `LINE RULE framework|device FRAME STREAM` for each breach, `-` where an entry has none or the device named
a stream that the framework doesn't know; then `open N ..` where requests are outstanding at the end, and
`first framework|device` where there is a breach; or `refused hal LINE CAUSE`. Status: 0 no breach, 1 some or refused,
2 other words.
"""
import sys

from hal_text import Refused, UNKNOWN, read
from hal_words import Past, gives_something_good, is_point

RULES = []  # (name, whom it binds, whether strict judging alone tells it, the function), in the order of the table


def rule(name, side, strict=False):
    """The function of an event and its past gives the (frame, stream) at fault; none where the rule is kept."""
    def add(function):
        RULES.append((name, side, strict, function))
        return function
    return add


def framework(name, **options):
    return rule(name, "framework", **options)


def device(name, **options):
    return rule(name, "device", **options)


def where(condition, frame=None, stream=None):
    """One entry where the condition holds."""
    return [(frame, stream)] if condition else []


def begins(event, *kinds):
    return event.is_begin and event.kind in kinds


def accepts(event, *kinds):
    return event.stage == "ok" and event.kind in kinds


def gives_output(stream):
    return stream.direction in ("out", "bidi")


def takes_input(stream):
    return stream.direction in ("in", "bidi")


def has_output(streams):
    return any(map(gives_output, streams))


def has_two_inputs(streams):
    return sum(map(takes_input, streams)) > 1


# ---- the framework


@framework("init-order")
def init_order(event, past):
    return where(event.is_begin and event.kind not in ("open", "init", "close") and not past.is_initialized(past.end))


@framework("init-twice")
def init_twice(event, past):
    return where(begins(event, "init") and past.stands("init", "begin", past.end))


@framework("no-configuration")
def no_configuration(event, past):
    return where(begins(event, "request") and past.configured(past.end) is None, event.frame)


@framework("no-output")
def no_output(event, past):
    return (where(begins(event, "request") and not event.targets, event.frame)
            + where(begins(event, "configure") and not has_output(event.streams)))


@framework("no-settings")
def no_settings(event, past):
    return where(begins(event, "request") and event.same and not past.has_settings(past.end), event.frame)


@framework("two-inputs")
def two_inputs(event, past):
    return where(begins(event, "configure") and has_two_inputs(event.streams))


def is_flushed(request, past):
    """Accepted before the begin of a flush that ended ok."""
    return any(past.events[place].kind == "flush" and request.is_accepted(past.begin_of(past.events[place], place))
               for place in past.points if place > request.place)


@framework("configure-in-flight")
def configure_in_flight(event, past):
    if not begins(event, "configure"):
        return []
    return [(r.number, None) for r in past.current()
            if r.is_in_call(past.end) or (r.is_awaited(past.count, past.end) and not is_flushed(r, past))]


@framework("overlapping-calls")
def overlapping_calls(event, past):
    if not event.is_begin:
        return []
    asking = past.in_call(past.end) or past.is_within("configure", past.end)
    other = any(past.is_within(kind, past.end) for kind in ("open", "init", "template", "flush", "close"))
    return where((begins(event, "request", "configure", "close") and asking) or (begins(event, "close") and other))


@framework("call-after-close")
def call_after_close(event, past):
    return where(event.is_begin and event.kind != "open" and past.stands("close", "begin", past.end))


@framework("frame-number")
def frame_number(event, past):
    if not begins(event, "request"):
        return []
    used = past.accepted_numbers(past.end) + [r.number for r in past.in_call(past.end)]
    return where(any(number >= event.frame for number in used), event.frame)


@framework("held-buffer")
def held_buffer(event, past):
    if not begins(event, "request"):
        return []
    held = [target.buffer for target in past.held(past.end)] if event.targets else []
    asked = [target.buffer for target in event.targets]
    return [(event.frame, t.stream) for t in event.targets if t.buffer in held or asked.count(t.buffer) > 1]


@framework("repeated-stream", strict=True)
def repeated_stream(event, past):
    asked = [target.stream for target in event.targets]
    return [(event.frame, stream) for stream in asked if asked.count(stream) > 1]


@framework("too-many-buffers")
def too_many_buffers(event, past):
    if not begins(event, "request"):
        return []
    at_device = [t.stream for t in past.held(past.end) + list(event.targets)] if event.targets else []
    return [(event.frame, t.stream) for t in event.targets
            if 0 < past.most(t.stream, past.end) < at_device.count(t.stream)]


def unknown_targets(frame, targets, past):
    known = [stream.stream for stream in past.streams(past.end)]
    return [(frame, target.stream) for target in targets if target.stream not in known]


@framework("unknown-stream")
def unknown_stream(event, past):
    return unknown_targets(event.frame, event.targets, past) if begins(event, "request") else []


# ---- the device, where a call returns


def begin_place(event, past):
    return past.begin_of(event, past.end)


@device("accepted-before-init")
def accepted_before_init(event, past):
    return where(accepts(event, "template", "configure", "request", "flush")
                 and not past.is_initialized(begin_place(event, past)))


@device("accepted-init-twice")
def accepted_init_twice(event, past):
    return where(accepts(event, "init") and past.is_initialized(begin_place(event, past)))


@device("accepted-dead")
def accepted_dead(event, past):
    return where(accepts(event, "init", "template", "configure", "request", "flush")
                 and past.is_dead(begin_place(event, past)))


def asked_targets(event, past):
    return past.last(event.frame).targets


@device("accepted-no-output")
def accepted_no_output(event, past):
    return (where(accepts(event, "request") and not asked_targets(event, past), event.frame)
            if event.kind == "request" else
            where(accepts(event, "configure") and not has_output(past.asked(event, past.end))))


@device("accepted-two-inputs")
def accepted_two_inputs(event, past):
    return where(accepts(event, "configure") and has_two_inputs(past.asked(event, past.end)))


@device("accepted-no-settings")
def accepted_no_settings(event, past):
    return where(accepts(event, "request") and past.last(event.frame).begin.same and not past.has_settings(past.end),
                 event.frame)


@device("accepted-unknown-stream")
def accepted_unknown_stream(event, past):
    return unknown_targets(event.frame, asked_targets(event, past), past) if accepts(event, "request") else []


@device("no-max-buffers")
def no_max_buffers(event, past):
    if not accepts(event, "configure"):
        return []
    asked = [stream.stream for stream in past.asked(event, past.end)]
    named = [stream for stream, _ in event.most]
    return ([(None, stream) for stream in asked if stream not in named]
            + [(None, stream) for stream, most in event.most if stream not in asked or most == 0])


def is_flawed(begin, before):
    """The begin of a request broke a rule of the framework, strict or not; before: the past that it had."""
    return any(function(begin, before) for _, side, _, function in RULES if side == "framework")


def past_until(past, place):
    """The past as it was at the place."""
    earlier = Past(past.count)
    for event in past.events[:place]:
        earlier.add(event)
    return earlier


def is_excused(event, past):
    request = past.last(event.frame)
    begin, before = request.begin, past_until(past, request.place)
    streams = before.streams(before.end)
    outputs = [stream.stream for stream in streams if gives_output(stream)]
    entered = any(begins(e, "flush", "configure", "close") for e in past.events[request.place + 1:])
    return (is_flawed(begin, before) or begin.no_handle or begin.bad_settings
            or any(target.stream not in outputs for target in begin.targets)
            or not has_output(streams) or has_two_inputs(streams)
            or past.is_dead(past.end) or before.is_flushing(before.end) or entered)


def refuses(event):
    return event.kind == "request" and event.stage == "error" and event.error != "ENODEV"


@device("refused-request")
def refused_request(event, past):
    return where(refuses(event) and not is_excused(event, past), event.frame)


@device("refused-after-callback")
def refused_after_callback(event, past):
    return where(refuses(event) and past.last(event.frame).stands(lambda e: e.is_callback, past.end), event.frame)


# ---- the device, in its callbacks


def named(event, past):
    """The live request that a callback names, or none: of any other only the rows that ask nothing of it are judged."""
    return past.live(event.frame) if event.is_callback and event.frame is not None else None


def is_last_word(event):
    """What may come last of a request: an error of its result or a buffer, or a result with nothing in it."""
    return (event.kind in ("error-result", "error-buffer")
            or (event.kind == "result" and not event.buffers and event.pack != "metadata"))


@device("unknown-frame")
def unknown_frame(event, past):
    if not event.is_callback or event.frame is None or named(event, past):
        return []
    is_used = any(number >= event.frame for number in past.accepted_numbers(past.end))
    return where(not (is_used and is_last_word(event)), event.frame)


@device("callback-after-close")
def callback_after_close(event, past):
    return where(event.is_callback and past.stands("close", "end", past.end), event.frame)


@device("callback-after-failure")
def callback_after_failure(event, past):
    return where(event.is_callback and past.stands("error-device", "", past.end), event.frame)


@device("failed-with-frames")
def failed_with_frames(event, past):
    return outstanding(past) if event.kind == "error-device" else []


def outstanding(past):
    return [(r.number, None) for r in past.current() if r.is_outstanding(past.count, past.end)]


@device("shutter-twice")
def shutter_twice(event, past):
    request = named(event, past)
    return where(request and event.kind == "shutter" and request.has_shutter(past.end), event.frame)


@device("shutter-after-request-error")
def shutter_after_request_error(event, past):
    request = named(event, past)
    return where(request and event.kind == "shutter" and request.is_failed(past.end), event.frame)


@device("empty-result")
def empty_result(event, past):
    return where(event.kind == "result" and event.pack == "none" and not event.buffers and not event.input, event.frame)


@device("partial-number")
def partial_number(event, past):
    kept = {"metadata": lambda k: 1 <= k <= past.count, "none": lambda k: k == 0, "empty": lambda k: k <= past.count}
    return where(event.kind == "result" and not kept[event.pack](event.partial), event.frame)


def gives_metadata(event):
    return event.kind == "result" and event.pack == "metadata"


@device("partial-twice")
def partial_twice(event, past):
    request = named(event, past)
    return where(request and gives_metadata(event) and 1 <= event.partial <= past.count
                 and request.has_part(event.partial, past.end), event.frame)


@device("metadata-after-request-error")
def metadata_after_request_error(event, past):
    request = named(event, past)
    return where(request and gives_metadata(event) and request.is_failed(past.end), event.frame)


def has_end_error(request, before):
    return request.has_result_error(before) or request.is_failed(before)


def has_sound_end(request, count):
    """Its last part stands, and not behind an error of its result or of the request."""
    return any(gives_metadata(event) and event.partial == count and not has_end_error(request, place)
               for place, event in request.standing)


@device("metadata-order")
def metadata_order(event, past):
    request = named(event, past)
    return where(request and gives_metadata(event) and event.partial == past.count
                 and not has_end_error(request, past.end)
                 and any(has_sound_end(later, past.count) for later in past.later(request)), event.frame)


# ---- the device: buffers


def buffers(event, past):
    """The buffers of a result of a live request, each with its place in the result."""
    return list(enumerate(event.buffers)) if event.kind == "result" and named(event, past) else []


@device("not-at-device")
def not_at_device(event, past):
    found = []
    for place, returned in buffers(event, past):
        request = named(event, past)
        is_due = any((t.stream, t.buffer) == (returned.stream, returned.buffer) and not request.is_back(t, past.end)
                     for t in request.targets)
        stands = any(earlier.buffer == returned.buffer for earlier in event.buffers[:place])
        found += where(not is_due or stands, event.frame, returned.stream)
    return found


@device("buffer-status")
def buffer_status(event, past):
    return [(event.frame, returned.stream) for returned in event.buffers if returned.status == UNKNOWN]


@device("buffer-order")
def buffer_order(event, past):
    return [(event.frame, returned.stream) for _, returned in buffers(event, past)
            if returned.status == "ok" and returned.stream is not None
            and any(later.is_filled(returned.stream, past.end) for later in past.later(named(event, past)))]


def is_excepted(returned, is_flushing):
    """A failed buffer that comes back in a flush has no order."""
    return returned.status == "error" and is_flushing


def is_clashing(returned, later, past):
    """A buffer of the later request for the stream is back that must not be, and not both are ok."""
    asked = {target.buffer for target in later.targets if target.stream == returned.stream}
    return any(other.buffer in asked and not (returned.status == "ok" and other.status == "ok")
               and not is_excepted(other, past.is_flushing(place)) for place, other in later.returns(past.end))


@device("failed-buffer-order", strict=True)
def failed_buffer_order(event, past):
    return [(event.frame, returned.stream) for _, returned in buffers(event, past)
            if returned.stream is not None and not is_excepted(returned, past.is_flushing(past.end))
            and any(is_clashing(returned, later, past) for later in past.later(named(event, past)))]


@device("good-after-error")
def good_after_error(event, past):
    return [(event.frame, returned.stream) for _, returned in buffers(event, past) if returned.status == "ok"
            and (named(event, past).is_failed(past.end)
                 or (returned.stream is not None and named(event, past).has_buffer_error(returned.stream, past.end)))]


@device("acquire-fence")
def acquire_fence(event, past):
    return [(event.frame, returned.stream) for returned in event.buffers if returned.acquire]


@device("release-fence")
def release_fence(event, past):
    found = []
    for _, returned in buffers(event, past):
        own = [t.fence for t in named(event, past).targets if t.buffer == returned.buffer]
        found += where(returned.status == "error" and returned.release is not None and returned.release not in own,
                       event.frame, returned.stream)
    return found


# ---- the device: errors


def is_error(event, *kinds):
    return event.is_callback and event.kind in kinds


@device("error-twice")
def error_twice(event, past):
    request = named(event, past)
    if not request:
        return []
    is_named = event.stream is None or event.stream in [target.stream for target in request.targets]
    return where((is_error(event, "error-request") and request.is_failed(past.end))
                 or (is_error(event, "error-result") and request.has_result_error(past.end))
                 or (is_error(event, "error-buffer") and is_named and request.has_buffer_error(event.stream, past.end)),
                 event.frame, event.stream)


@device("error-beside-request-error")
def error_beside_request_error(event, past):
    request = named(event, past)
    return where(request and is_error(event, "error-result", "error-buffer") and request.is_failed(past.end),
                 event.frame, event.stream)


@device("request-error-late")
def request_error_late(event, past):
    request = named(event, past)
    late = lambda e: gives_something_good(e) or is_error(e, "error-result", "error-buffer")
    return where(request and is_error(event, "error-request") and request.stands(late, past.end), event.frame)


@device("error-for-good-buffer")
def error_for_good_buffer(event, past):
    request = named(event, past)
    return where(request and is_error(event, "error-buffer") and request.has_good(event.stream, past.end),
                 event.frame, event.stream)


@device("error-unknown-stream")
def error_unknown_stream(event, past):
    request = named(event, past)
    return where(request and is_error(event, "error-buffer")
                 and event.stream not in [target.stream for target in request.targets], event.frame, event.stream)


# ---- the device: what is left, or missing, where a flush or a close returns


@device("flush-left")
def flush_left(event, past):
    if not accepts(event, "flush") or past.is_dead(past.end):
        return []
    return [(r.number, None) for r in past.current()
            if r.is_outstanding(past.count, past.end) and past.is_in_time(r, event, past.end)]


@device("close-left")
def close_left(event, past):
    return outstanding(past) if (event.kind, event.stage) == ("close", "end") and not past.is_dead(past.end) else []


def newly_complete(event, past):
    """Where a flush or a close returns: the complete requests of which it is the first to speak."""
    if not is_point(event) or past.is_dead(past.end):
        return []
    return [r for r in past.current() if r.is_complete(past.count, past.end)
            and past.is_in_time(r, event, past.end) and not past.is_passed(r, past.end)]


@device("failed-without-notice")
def failed_without_notice(event, past):
    return [(r.number, target.stream) for r in newly_complete(event, past) for target in r.unannounced(past.end)]


@device("no-shutter")
def no_shutter(event, past):
    return [(r.number, None) for r in newly_complete(event, past)
            if not r.is_failed(past.end) and r.has_something_good(past.end) and not r.has_shutter(past.end)]


# ---- the report


def order(fault):
    """Frames and streams in their order, none first."""
    return tuple(-1 if number is None else number for number in fault)


def ends_again(event, past):
    """A call returns once: a second end of a request breaks nothing, and stands for nothing."""
    if event.kind != "request" or not event.is_end:
        return False
    request = past.last(event.frame)
    return request is None or not request.is_in_call(past.end)


def breaches_of(event, past, is_strict):
    if ends_again(event, past):
        return []
    return [(event.line, name, side, *fault) for name, side, strict, function in RULES if is_strict or not strict
            for fault in sorted(set(function(event, past)), key=order)]


def is_heard(event, past):
    """A callback that names a request that isn't live stands for nothing, nor does a second end of a request."""
    if not event.is_callback:
        return not ends_again(event, past)
    return event.frame is None or past.live(event.frame) is not None


def judge(count, events, is_strict=False):
    """The breaches in their order, and the numbers of the requests that are outstanding at the end."""
    past, report = Past(count), []
    for event in events:
        report += breaches_of(event, past, is_strict)
        if (event.kind, event.stage) == ("open", "ok"):
            past = Past(count)
        if is_heard(event, past):
            past.add(event)
    return report, sorted(number for number, _ in outstanding(past))


def report_lines(report, left):
    dash = lambda number: "-" if number is None else str(number)
    lines = [f"{line} {name} {side} {dash(frame)} {dash(stream)}" for line, name, side, frame, stream in report]
    if left:
        lines.append("open " + " ".join(map(str, left)))
    if report:
        lines.append("first " + report[0][2])
    return lines


def said_of(data, is_strict):
    """The lines that are written of a log, and the status."""
    try:
        report, left = judge(*read(data), is_strict=is_strict)
    except Refused as refused:
        return [str(refused)], 1
    return report_lines(report, left), 1 if report else 0


def judge_files(names, is_strict):
    worst = 0
    for name in names:
        with open(name, "rb") as file:
            lines, status = said_of(file.read(), is_strict)
        worst = max(worst, status)
        for line in lines:
            print(f"{name}: {line}")
    return worst


def main(words):
    options = [word for word in words if word.startswith("-")]
    names = [word for word in words if word not in options]
    if any(option not in ("--plain", "--strict") for option in options):
        print(__doc__, file=sys.stderr)
        return 2
    is_strict = "--strict" in options
    if names:
        return judge_files(names, is_strict)
    lines, status = said_of(sys.stdin.buffer.read(), is_strict)
    for line in lines:
        print(line)
    return status


if __name__ == "__main__":
    sys.exit(main(sys.argv[1:]))

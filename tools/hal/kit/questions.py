"""Which rules of camera3.h a log exercises.

A rule is *exercised* by an event at which its question arises: at which a device or framework that doesn't keep it would
have shown that. Each rule's question stands below under its name, as a condition on the event and its past, in the words
of tests/hal (hal_words.py). An event exercises a rule once or not at all, and each event that breaks a rule exercises it
(`test` holds that on all stored logs).

Nothing here is proved: it is counted by this script alone, and says what was tried, not what holds.

usage: questions.py < LOG       a line `RULE SIDE TIMES` for each rule, in the order of the table
"""
import sys
from pathlib import Path

sys.path.insert(0, str(Path(__file__).resolve().parents[3] / "tests" / "hal"))

import plain_judge  # noqa: E402  (it stands in tests/hal)
from hal_text import Refused, read  # noqa: E402
from hal_words import Past  # noqa: E402

QUESTIONS = {}  # by the rule's name


def exercised_by(name):
    """The function of an event and its past says whether the rule's question arises there."""
    def add(function):
        QUESTIONS[name] = function
        return function
    return add


# ---- words


def begins(event, *kinds):
    return event.is_begin and event.kind in kinds


def ends(event, *kinds):
    return event.is_end and event.kind in kinds


def ends_ok(event, *kinds):
    return event.stage == "ok" and event.kind in kinds


def is_of(event, *kinds):
    return event.is_callback and event.kind in kinds


def live(event, past):
    """The live request that a callback names, or none."""
    return plain_judge.named(event, past)


def returned(event, past):
    """The buffers of a result of a live request."""
    return event.buffers if event.kind == "result" and live(event, past) else ()


def others(request, past):
    """The requests that stand besides it and aren't refused: earlier and later ones."""
    return [r for r in past.requests if r is not request and not r.is_refused(past.end)]


def has_accepted(past):
    return bool(past.accepted_numbers(past.end))


def begin_place(event, past):
    return past.begin_of(event, past.end)


def is_point(event):
    """Where a flush or a close has returned."""
    return (event.kind, event.stage) in (("flush", "ok"), ("close", "end"))


def is_failed(event, past):
    request = live(event, past)
    return request is not None and request.is_failed(past.end)


def fails_request(event, past):
    return is_of(event, "error-request") and live(event, past) is not None


# ---- the framework


@exercised_by("init-order")
def init_order(event, past):
    """A call that needs an initialize before it."""
    return event.is_begin and event.kind not in ("open", "init", "close")


@exercised_by("init-twice")
def init_twice(event, past):
    """An initialize."""
    return begins(event, "init")


@exercised_by("no-configuration")
def no_configuration(event, past):
    """A request."""
    return begins(event, "request")


@exercised_by("no-output")
def no_output(event, past):
    """A request or a configuration."""
    return begins(event, "request", "configure")


@exercised_by("no-settings")
def no_settings(event, past):
    """A request without settings."""
    return begins(event, "request") and event.same


@exercised_by("two-inputs")
def two_inputs(event, past):
    """A configuration with an input or bidirectional stream."""
    return begins(event, "configure") and any(map(plain_judge.takes_input, event.streams))


@exercised_by("configure-in-flight")
def configure_in_flight(event, past):
    """A configuration behind a request."""
    return begins(event, "configure") and bool(past.requests)


@exercised_by("overlapping-calls")
def overlapping_calls(event, past):
    """A request, a configuration or a close."""
    return begins(event, "request", "configure", "close")


@exercised_by("call-after-close")
def call_after_close(event, past):
    """A call other than open."""
    return event.is_begin and event.kind != "open"


@exercised_by("frame-number")
def frame_number(event, past):
    """A request behind another one."""
    return begins(event, "request") and bool(past.requests)


@exercised_by("held-buffer")
def held_buffer(event, past):
    """A request with a buffer that an earlier one had, or with two buffers."""
    used = {target.buffer for request in past.requests for target in request.targets}
    return begins(event, "request") and (len(event.targets) > 1 or any(t.buffer in used for t in event.targets))


@exercised_by("repeated-stream")
def repeated_stream(event, past):
    """A request with two buffers."""
    return begins(event, "request") and len(event.targets) > 1


@exercised_by("too-many-buffers")
def too_many_buffers(event, past):
    """A request with a buffer of a stream whose max_buffers is known."""
    return begins(event, "request") and any(past.most(t.stream, past.end) > 0 for t in event.targets)


@exercised_by("unknown-stream")
def unknown_stream(event, past):
    """A request with a buffer."""
    return begins(event, "request") and bool(event.targets)


# ---- the device, where a call returns


@exercised_by("accepted-before-init")
def accepted_before_init(event, past):
    """The end of a call, whatever the answer, that began before an initialize had returned ok."""
    return (ends(event, "template", "configure", "request", "flush")
            and not past.is_initialized(begin_place(event, past)))


@exercised_by("accepted-init-twice")
def accepted_init_twice(event, past):
    """The end of an initialize that began when one had returned ok."""
    return ends(event, "init") and past.is_initialized(begin_place(event, past))


@exercised_by("accepted-dead")
def accepted_dead(event, past):
    """The end of a call that began when the device was dead."""
    return (ends(event, "init", "template", "configure", "request", "flush")
            and past.is_dead(begin_place(event, past)))


@exercised_by("accepted-no-output")
def accepted_no_output(event, past):
    """The end of a request without a buffer, or of a configuration without an output."""
    if ends(event, "request"):
        return not past.last(event.frame).targets
    return ends(event, "configure") and not plain_judge.has_output(past.asked(event, past.end))


@exercised_by("accepted-two-inputs")
def accepted_two_inputs(event, past):
    """The end of a configuration with two inputs."""
    return ends(event, "configure") and plain_judge.has_two_inputs(past.asked(event, past.end))


@exercised_by("accepted-no-settings")
def accepted_no_settings(event, past):
    """The end of a request without settings, where none was accepted since the configuration."""
    return ends(event, "request") and past.last(event.frame).begin.same and not past.has_settings(past.end)


@exercised_by("accepted-unknown-stream")
def accepted_unknown_stream(event, past):
    """The end of a request with a buffer of a stream that isn't configured."""
    if not ends(event, "request"):
        return False
    known = [stream.stream for stream in past.streams(past.end)]
    return any(target.stream not in known for target in past.last(event.frame).targets)


@exercised_by("no-max-buffers")
def no_max_buffers(event, past):
    """A configuration that was accepted."""
    return ends_ok(event, "configure")


@exercised_by("refused-request")
def refused_request(event, past):
    """The end of a request in which nothing is wrong: accepted, or refused without an excuse."""
    return (ends(event, "request") and (event.stage == "ok" or event.error != "ENODEV")
            and not plain_judge.is_excused(event, past))


@exercised_by("refused-after-callback")
def refused_after_callback(event, past):
    """A request is refused."""
    return plain_judge.refuses(event)


# ---- the device, in its callbacks


@exercised_by("unknown-frame")
def unknown_frame(event, past):
    """A callback that names a request."""
    return event.is_callback and event.frame is not None


@exercised_by("callback-after-close")
def callback_after_close(event, past):
    """A close of a device that had accepted a request has returned; and each callback behind that."""
    closed = (event.kind, event.stage) == ("close", "end") and has_accepted(past)
    return closed or (event.is_callback and past.stands("close", "end", past.end))


@exercised_by("callback-after-failure")
def callback_after_failure(event, past):
    """The device tells of its failure when it had accepted a request; and each callback behind that."""
    return (is_of(event, "error-device") and has_accepted(past)) \
        or (event.is_callback and past.stands("error-device", "", past.end))


@exercised_by("failed-with-frames")
def failed_with_frames(event, past):
    """The device tells of its failure when it had accepted a request."""
    return is_of(event, "error-device") and has_accepted(past)


@exercised_by("shutter-twice")
def shutter_twice(event, past):
    """A shutter."""
    return event.kind == "shutter" and live(event, past) is not None


@exercised_by("shutter-after-request-error")
def shutter_after_request_error(event, past):
    """A request fails whole; and a shutter of one that has."""
    return fails_request(event, past) or (event.kind == "shutter" and is_failed(event, past))


@exercised_by("empty-result")
def empty_result(event, past):
    """A result."""
    return event.kind == "result"


@exercised_by("partial-number")
def partial_number(event, past):
    """A result."""
    return event.kind == "result"


@exercised_by("partial-twice")
def partial_twice(event, past):
    """Metadata with a number from 1 to the device's count."""
    return (plain_judge.gives_metadata(event) and 1 <= event.partial <= past.count
            and live(event, past) is not None)


@exercised_by("metadata-after-request-error")
def metadata_after_request_error(event, past):
    """A request fails whole; and metadata of one that has."""
    return fails_request(event, past) or (plain_judge.gives_metadata(event) and is_failed(event, past))


@exercised_by("metadata-order")
def metadata_order(event, past):
    """The last metadata of a request, when another one has its own."""
    request = live(event, past)
    return (request is not None and plain_judge.gives_metadata(event) and event.partial == past.count
            and any(plain_judge.has_sound_end(other, past.count) for other in others(request, past)))


@exercised_by("not-at-device")
def not_at_device(event, past):
    """A buffer comes back."""
    return bool(returned(event, past))


@exercised_by("buffer-status")
def buffer_status(event, past):
    """A buffer comes back."""
    return bool(event.buffers)


@exercised_by("buffer-order")
def buffer_order(event, past):
    """An ok buffer of a stream of which another request has an ok one back."""
    return any(b.status == "ok" and b.stream is not None
               and any(other.is_filled(b.stream, past.end) for other in others(live(event, past), past))
               for b in returned(event, past))


@exercised_by("failed-buffer-order")
def failed_buffer_order(event, past):
    """A buffer of a stream of which another request has one back, not both ok, and neither failed in a flush."""
    return any(b.stream is not None and not plain_judge.is_excepted(b, past.is_flushing(past.end))
               and any(plain_judge.is_clashing(b, other, past) for other in others(live(event, past), past))
               for b in returned(event, past))


@exercised_by("good-after-error")
def good_after_error(event, past):
    """A buffer comes back behind its error, or that of its request."""
    request = live(event, past)
    return any(request.is_failed(past.end) or (b.stream is not None and request.has_buffer_error(b.stream, past.end))
               for b in returned(event, past))


@exercised_by("acquire-fence")
def acquire_fence(event, past):
    """A buffer comes back."""
    return bool(event.buffers)


@exercised_by("release-fence")
def release_fence(event, past):
    """A failed buffer comes back."""
    return any(b.status == "error" for b in returned(event, past))


@exercised_by("error-twice")
def error_twice(event, past):
    """An error of a request or a part of it."""
    return is_of(event, "error-request", "error-result", "error-buffer") and live(event, past) is not None


@exercised_by("error-beside-request-error")
def error_beside_request_error(event, past):
    """A request fails whole; and an error of a part of one that has."""
    return fails_request(event, past) or (is_of(event, "error-result", "error-buffer") and is_failed(event, past))


@exercised_by("request-error-late")
def request_error_late(event, past):
    """A request fails whole."""
    return fails_request(event, past)


@exercised_by("error-for-good-buffer")
def error_for_good_buffer(event, past):
    """An error of a buffer."""
    return is_of(event, "error-buffer") and live(event, past) is not None


@exercised_by("error-unknown-stream")
def error_unknown_stream(event, past):
    """An error of a buffer."""
    return is_of(event, "error-buffer") and live(event, past) is not None


# ---- the device, where a flush or a close returns


@exercised_by("flush-left")
def flush_left(event, past):
    """A flush returns ok, and a request was accepted before it began."""
    return (ends_ok(event, "flush") and not past.is_dead(past.end)
            and bool(past.accepted_numbers(begin_place(event, past))))


@exercised_by("close-left")
def close_left(event, past):
    """A close returns, and a request was accepted."""
    return (event.kind, event.stage) == ("close", "end") and not past.is_dead(past.end) and has_accepted(past)


@exercised_by("failed-without-notice")
def failed_without_notice(event, past):
    """A flush or a close returns, the first behind a complete request with a failed buffer."""
    return any(b.status == "error" for request in plain_judge.newly_complete(event, past)
               for _, b in request.returns(past.end))


@exercised_by("no-shutter")
def no_shutter(event, past):
    """A flush or a close returns, the first behind a complete request of which something good came."""
    return any(not request.is_failed(past.end) and request.has_something_good(past.end)
               for request in plain_judge.newly_complete(event, past))


# ---- counting


def sides():
    """Whom each rule binds, in the order of the table."""
    return {name: side for name, side, _, _ in plain_judge.RULES}


def exercises(count, events):
    """Each event with the rules that it exercises."""
    past, found = Past(count), []
    for event in events:
        if not plain_judge.ends_again(event, past):
            found.append((event, [name for name, asks in QUESTIONS.items() if asks(event, past)]))
        if (event.kind, event.stage) == ("open", "ok"):
            past = Past(count)
        if plain_judge.is_heard(event, past):
            past.add(event)
    return found


def exercised_in(data):
    """How often each rule is exercised in the text of a log; nothing of a text that isn't one."""
    times = dict.fromkeys(sides(), 0)
    try:
        count, events = read(data)
    except Refused:
        return times
    for _, names in exercises(count, events):
        for name in names:
            times[name] += 1
    return times


def main():
    for name, times in exercised_in(sys.stdin.buffer.read()).items():
        print(name, sides()[name], times)
    return 0


if __name__ == "__main__":
    sys.exit(main())

#!/usr/bin/env python3
"""A judge of hal logs of both versions, by the note alone: each rule is a function of an event and its past. It is slow,
and independent of the program, whose judge is held against it.

usage: plain_judge.py [--plain] [--strict] < LOG
       plain_judge.py [--strict] LOG ..              the same of each, its name before each line

Writes a line `LINE RULE framework|device FRAME STREAM` for each breach, `-` where an entry has none or the device named
a stream that the framework doesn't know; then `slow LINE NAME NANOSECONDS` for each slow call, `open N ..` where requests
are outstanding at the end, and `first framework|device` where there is a breach; or `refused hal LINE CAUSE`. Status: 0
no breach, 1 some or refused, 2 other words.
"""
import sys
from typing import Callable, NamedTuple

from hal_text import Refused, UNKNOWN, UNTOLD, read
from hal_words import (Past, gives_metadata, gives_output, gives_something_good, has_output, inputs_in, is_good, is_point,
                       is_spoken_of)


class Rule(NamedTuple):
    name: str
    side: str             # whom it binds
    is_strict: bool       # strict judging alone tells it
    is_second: bool       # it is judged in version 2 alone
    function: Callable    # of an event and its past: the (frame, stream) at fault; none where the rule is kept


RULES = []  # in the order of the table


def rule(name, side, strict=False, second=False):
    def add(function):
        RULES.append(Rule(name, side, strict, second, function))
        return function
    return add


def framework(name, **options):
    return rule(name, "framework", **options)


def device(name, **options):
    return rule(name, "device", **options)


def where(condition, frame=None, stream=None):
    """One entry where the condition holds."""
    return [(frame, stream)] if condition else []


def begins(event, *kinds):
    return event.is_begin and event.kind in kinds


def accepts(event, *kinds):
    return event.stage == "ok" and event.kind in kinds


def brought(event):
    """The targets of a request, and its input."""
    return event.targets + ((event.input,) if event.input else ())


def strangers(frame, buffers, past):
    """The buffers of streams that aren't in the configuration, if that is known."""
    known = past.configuration.numbers if past.configuration else []
    return [(frame, target.stream) for target in buffers if past.is_known and target.stream not in known]


# ---- the framework


@framework("init-order")  # S2.3, initialize
def init_order(event, past):
    return where(event.is_begin and event.kind not in ("open", "init", "close") and not past.is_initialized)


@framework("init-twice")  # initialize
def init_twice(event, past):
    return where(begins(event, "init") and past.stands("init", "begin"))


@framework("no-configuration")  # S2.4, configure_streams
def no_configuration(event, past):
    return where(begins(event, "request") and past.configuration is None, event.frame)


@framework("no-output")  # num_output_buffers, configure_streams
def no_output(event, past):
    return (where(begins(event, "request") and not event.targets, event.frame)
            + where(begins(event, "configure") and not has_output(event.streams)))


@framework("no-settings")  # settings
def no_settings(event, past):
    return where(begins(event, "request") and event.same and not past.has_settings(), event.frame)


@framework("two-inputs")  # configure_streams
def two_inputs(event, past):
    return where(begins(event, "configure") and inputs_in(event.streams) > 1)


def is_flushed(request, past):
    """Accepted before the begin of a flush that ended ok; of flushes at once, once all have ended, before the last."""
    limits = [call.begins[0 if call.is_in_call else -1].place for call in past.calls
              if call.kind == "flush" and any(end.stage == "ok" for end in call.ends)]
    return any(request.is_accepted_before(limit) for limit in limits)


@framework("configure-in-flight")  # S2.11, configure_streams, flush
def configure_in_flight(event, past):
    if not begins(event, "configure") or past.is_dead:
        return []
    return [(r.number, None) for r in past.clear() if r.is_in_call or (r.is_awaited and not is_flushed(r, past))]


@framework("overlapping-calls")  # process_capture_request, S2.12
def overlapping_calls(event, past):
    asking = past.requests_in_call() or past.is_within("configure")
    other = past.is_within("open", "init", "template", "flush", "close")
    return where((begins(event, "request", "configure", "close") and asking) or (begins(event, "close") and other))


@framework("call-after-close")  # S2.12
def call_after_close(event, past):
    return where(event.is_begin and event.kind != "open" and past.stands("close", "begin"))


@framework("frame-number")  # frame_number
def frame_number(event, past):
    if not begins(event, "request"):
        return []
    is_in_call = any(r.number >= event.frame for r in past.requests_in_call())
    return where(past.is_used(event.frame) or is_in_call, event.frame)


@framework("held-buffer")  # output_buffers, S2.10
def held_buffer(event, past):
    if not begins(event, "request"):
        return []
    held = {target.buffer for target in past.held()}
    asked = [target.buffer for target in event.targets]
    return [(event.frame, t.stream) for t in brought(event) if t.buffer in held or asked.count(t.buffer) > 1]


@framework("repeated-stream", strict=True)  # inferred of process_capture_result: 'a buffer for each stream'
def repeated_stream(event, past):
    asked = [target.stream for target in event.targets]
    return [(event.frame, stream) for stream in asked if asked.count(stream) > 1]


@framework("too-many-buffers")  # max_buffers
def too_many_buffers(event, past):
    if not begins(event, "request") or past.configuration is None:
        return []
    at_device = past.held() + list(event.targets)
    count = lambda stream: len({target.buffer for target in at_device if target.stream == stream})
    return [(event.frame, t.stream) for t in event.targets
            if 0 < past.configuration.max_buffers(t.stream) < count(t.stream)]


@framework("unknown-stream")  # configure_streams
def unknown_stream(event, past):
    return strangers(event.frame, brought(event), past) if begins(event, "request") else []


@framework("unknown-template", second=True)  # construct_default_request_settings, camera3_request_template_t
def unknown_template(event, past):
    return where(begins(event, "template") and (event.template == 0 or 7 <= event.template <= 0x3FFFFFFF))


@framework("unknown-mode", second=True)  # operation_mode
def unknown_mode(event, past):
    return where(begins(event, "configure") and event.mode is not None and 2 <= event.mode <= 0x7FFF)


@framework("unknown-rotation", second=True)  # rotation
def unknown_rotation(event, past):
    return [(None, stream.stream) for stream in event.streams
            if stream.direction != "in" and stream.rotation not in (0, 90, 180, 270)]


def has_left(stream, past):
    """It was in a configuration, and isn't in that which stands, which is a later one; both known."""
    return (past.configuration is not None and past.is_known and stream not in past.configuration.numbers
            and any(stream in earlier.numbers for earlier in past.configurations if earlier.is_known))


@framework("stream-again", second=True)  # configure_streams, 'It will not be reused'
def stream_again(event, past):
    return [(None, stream.stream) for stream in event.streams if has_left(stream.stream, past)]


# ---- the device, where a call returns


@device("accepted-before-init")  # S6
def accepted_before_init(event, past):
    return where(accepts(event, "template", "configure", "request", "flush") and past.is_uninitialized)


@device("accepted-init-twice")  # S6
def accepted_init_twice(event, past):
    return where(accepts(event, "init") and past.begin_of(event).is_initialized)


@device("accepted-dead")  # S6; S2.13 says it of a notify that has returned
def accepted_dead(event, past):
    if not accepts(event, "init", "template", "configure", "request", "flush"):
        return []
    begin = past.begin_of(event)
    return where(begin.is_dead if past.is_strict else begin.is_surely_dead)


def alone(event, past, kind):
    """The call of the kind that the event ends ok, and that was never joined by another; else none."""
    call = past.call_of(event) if accepts(event, kind) else None
    return call if call and call.is_alone else None


def lonely_request(event, past):
    """The request that the event accepts, alone among requests and configures; else none."""
    request = past.last(event.frame) if accepts(event, "request") else None
    return request if request and request.is_alone else None


@device("accepted-no-output")  # configure_streams, num_output_buffers
def accepted_no_output(event, past):
    configure = alone(event, past, "configure")
    return (where(configure and not has_output(configure.begin.event.streams))
            + where(accepts(event, "request") and not past.last(event.frame).targets, event.frame))


@device("accepted-two-inputs")  # configure_streams
def accepted_two_inputs(event, past):
    configure = alone(event, past, "configure")
    return where(configure and inputs_in(configure.begin.event.streams) > 1)


@device("accepted-no-settings")  # settings
def accepted_no_settings(event, past):
    request = lonely_request(event, past)
    return where(request and request.moment.event.same and not past.has_settings(), event.frame)


@device("accepted-unknown-stream")  # process_capture_request
def accepted_unknown_stream(event, past):
    request = lonely_request(event, past)
    return strangers(event.frame, brought(request.moment.event), past) if request else []


@device("no-max-buffers")  # max_buffers
def no_max_buffers(event, past):
    configure = alone(event, past, "configure")
    if not configure:
        return []
    asked = [stream.stream for stream in configure.begin.event.streams]
    named = [stream for stream, _ in event.most]
    return ([(None, stream) for stream in asked if stream not in named]
            + [(None, stream) for stream, most in event.most if stream not in asked or most == 0])


def is_sound_configuration(configuration, version):
    """One whose requests a device has to take."""
    if configuration is None or not configuration.is_known or not has_output(configuration.streams):
        return False
    return inputs_in(configuration.streams) <= (1 if version == 2 else 0)


def is_excused(request, past):
    """Something excuses that it is refused."""
    begin, asked = request.moment, request.moment.event
    if begin.broken or asked.no_handle or asked.bad_settings or asked.input or request.is_vendors:
        return True
    if not is_sound_configuration(begin.configuration, past.version):
        return True
    outputs = [stream.stream for stream in begin.configuration.streams if gives_output(stream)]
    entered = any(moment.place > begin.place for call in past.calls if call.kind in ("flush", "configure", "close")
                  for moment in call.begins)
    return (any(target.stream not in outputs for target in request.targets)
            or past.is_dead or begin.is_flushing or entered)


def refused(event, past):
    """The clear request that the event refuses, not with ENODEV; else none."""
    is_so = event.kind == "request" and event.stage == "error" and event.error != "ENODEV"
    return past.live(event.frame) if is_so else None


@device("refused-request")  # process_capture_request; 'exactly as valid as before', camera3_stream_t
def refused_request(event, past):
    request = refused(event, past)
    return where(request and not is_excused(request, past), event.frame)


@device("refused-after-callback")  # process_capture_request
def refused_after_callback(event, past):
    request = refused(event, past)
    return where(request and request.standing, event.frame)


# the rules of the framework that say when a call may be made, not what it may bring
OF_ORDER = {"init-order", "init-twice", "no-configuration", "configure-in-flight", "overlapping-calls",
            "call-after-close"}


def is_invalid_by_itself(event, past):
    """EINVAL is an answer to it: what it brought is invalid, whenever it comes."""
    begin = past.begin_of(event)
    asked = begin.event
    return event.kind == "flush" or asked.no_handle or asked.bad_settings or bool(begin.broken - OF_ORDER)


def answers_wrongly(event, past, *allowed):
    """The call ends in an error that is none of these, nor EINVAL for what is invalid by itself."""
    if event.stage != "error" or event.kind == "open" or event.error in ("ENODEV",) + allowed:
        return False
    return not (event.error == "EINVAL" and is_invalid_by_itself(event, past))


@device("refused-dead", second=True)  # S6, 'all other methods will return -ENODEV'
def refused_dead(event, past):
    if event.stage != "error" or event.kind == "open":
        return []
    begin = past.begin_of(event)
    out_of_order = begin.broken & {"init-order", "init-twice"}
    return where(begin.is_surely_dead and answers_wrongly(event, past, *(["ENOSYS"] if out_of_order else [])),
                 event.frame)


@device("refused-sequence", second=True)  # S6, 'must return -ENOSYS'
def refused_sequence(event, past):
    if not answers_wrongly(event, past, "ENOSYS"):
        return []
    again = event.kind == "init" and past.begin_of(event).is_initialized
    return where(again or (event.kind != "init" and past.is_uninitialized), event.frame)


# ---- the device, in its callbacks


def named(event, past, *kinds):
    """The live request that a callback of these kinds names; none where nothing is asked of it."""
    is_so = event.is_callback and event.kind in kinds and event.frame is not None
    return past.live(event.frame) if is_so else None


def is_last_word(event):
    """What may come last of a request: an error of its result or a buffer, or a result with nothing in it."""
    if event.kind in ("error-result", "error-buffer"):
        return True
    return event.kind == "result" and not event.buffers and event.pack != "metadata" and not event.back


@device("unknown-frame")  # frame_number, S6
def unknown_frame(event, past):
    if not event.is_callback or event.frame is None or past.is_live(event.frame):
        return []
    request = past.last(event.frame)
    may_come_failed = request is not None and request.is_refused and request.end.error == "ENODEV"
    is_late = past.is_used(event.frame) and is_last_word(event)
    return where(not may_come_failed and not is_late, event.frame)


@device("callback-after-close")  # S2.12
def callback_after_close(event, past):
    return where(event.is_callback and past.stands("close", "end"), event.frame)


@device("callback-after-failure")  # S2.13
def callback_after_failure(event, past):
    return where(event.is_callback and past.stands("error-device"), event.frame)


def outstanding(past):
    return [(r.number, None) for r in past.clear() if r.is_outstanding]


@device("failed-with-frames")  # S2.13
def failed_with_frames(event, past):
    return outstanding(past) if event.kind == "error-device" else []


@device("shutter-twice")  # S2.9
def shutter_twice(event, past):
    request = named(event, past, "shutter")
    return where(request and request.has_shutter, event.frame)


@device("shutter-after-request-error")  # flush 2; outside a flush strictly
def shutter_after_request_error(event, past):
    request = named(event, past, "shutter")
    return where(request and any(past.is_strict or heard.in_flush for heard in request.all("error-request")),
                 event.frame)


@device("shutter-late", strict=True, second=True)  # flush 3.3, 'should follow below'
def shutter_late(event, past):
    request = named(event, past, "result")
    if not request or not past.is_flushing or not (gives_metadata(event) or event.buffers):
        return []
    partly = any(heard.in_flush for kind in ("error-result", "error-buffer") for heard in request.all(kind))
    return where(partly and not request.is_failed and not request.has_shutter, event.frame)


@device("empty-result")  # process_capture_result
def empty_result(event, past):
    has_input = event.has_input_word or event.back
    return where(event.kind == "result" and event.pack == "none" and not event.buffers and not has_input, event.frame)


@device("partial-number")  # partial_result
def partial_number(event, past):
    allowed = {"metadata": range(1, past.count + 1), "none": range(0, 2 if past.count == 1 else 1),
               "empty": range(0, past.count + 1)}
    return where(event.kind == "result" and event.partial not in allowed[event.pack], event.frame)


@device("partial-twice")  # result
def partial_twice(event, past):
    request = named(event, past, "result")
    return where(request and gives_metadata(event) and 1 <= event.partial <= past.count
                 and request.has_part(event.partial, "metadata"), event.frame)


@device("metadata-after-request-error")  # flush 2, S6
def metadata_after_request_error(event, past):
    request = named(event, past, "result")
    return where(request and gives_metadata(event) and request.is_failed, event.frame)


def is_sound_end(event, request, past):
    """The last part of the request, and not behind an error of its result or of the request."""
    return (gives_metadata(event) and event.partial == past.count
            and not request.has_result_error and not request.is_failed)


@device("metadata-order")  # process_capture_result, S10.3.1
def metadata_order(event, past):
    request = named(event, past, "result")
    return where(request and not request.is_vendors and is_sound_end(event, request, past)
                 and any(later.has_sound_end() for later in past.following(request)), event.frame)


# ---- the device: buffers


def buffers(event, past, status=None):
    """The buffers of this status in a result of a live request."""
    live = event.buffers if named(event, past, "result") else ()
    return [returned for returned in live if status in (None, returned.status)]


def ordered(event, past, status=None):
    """The same of a request that has an order, and of streams that the framework knows."""
    request = named(event, past, "result")
    return [] if not request or request.is_vendors else [r for r in buffers(event, past, status) if r.stream is not None]


@device("not-at-device")  # process_capture_result
def not_at_device(event, past):
    found, seen = [], set()
    for returned in buffers(event, past):
        request = named(event, past, "result")
        is_due = any((t.stream, t.buffer) == (returned.stream, returned.buffer) and not request.is_back(t)
                     for t in request.targets)
        found += where(not is_due or returned.buffer in seen, event.frame, returned.stream)
        seen.add(returned.buffer)
    return found


@device("input-not-at-device", second=True)  # input_buffer, process_capture_result
def input_not_at_device(event, past):
    request = named(event, past, "result")
    if not request or not event.back:
        return []
    return where(not is_its_input(event.back, request) or request.returns_of_input(), event.frame, event.back.stream)


def is_its_input(returned, request):
    return request.input is not None and (
        (returned.stream, returned.buffer) == (request.input.stream, request.input.buffer))


def all_back(event):
    """The buffers of a result, and the input."""
    return event.buffers + ((event.back,) if event.back else ())


@device("buffer-status")  # camera3_buffer_status
def buffer_status(event, past):
    return [(event.frame, returned.stream) for returned in all_back(event) if returned.status == UNKNOWN]


@device("buffer-order")  # process_capture_result, flush 3.6, S10.3.1
def buffer_order(event, past):
    return [(event.frame, returned.stream) for returned in ordered(event, past, "ok")
            if any(later.is_filled(returned.stream) for later in past.following(named(event, past, "result")))]


def is_excepted(returned, in_flush):
    """A failed buffer that comes back in a flush has no order."""
    return returned.status == "error" and in_flush


def is_clashing(returned, later):
    """A buffer of the later request for the stream is back that must not be, and not both are ok."""
    return any(not (returned.status == "ok" == other.status) and not is_excepted(other, in_flush)
               for target in later.targets_of(returned.stream) for other, in_flush in later.returns_of(target))


@device("failed-buffer-order", strict=True)  # process_capture_result, 'must be returned in FIFO order'; flush 3.6
def failed_buffer_order(event, past):
    return [(event.frame, returned.stream) for returned in ordered(event, past)
            if not is_excepted(returned, past.is_flushing)
            and any(is_clashing(returned, later) for later in past.following(named(event, past, "result")))]


@device("input-order", second=True)  # input_buffer, 'the ordering .. must be maintained'
def input_order(event, past):
    request = named(event, past, "result")
    if not request or request.is_vendors or not event.back or past.is_flushing:
        return []
    overtaken = any(returned.status == "ok" and not in_flush for later in past.following(request)
                    for returned, in_flush in later.returns_of_input())
    return where(overtaken and event.back.status == "ok" and is_its_input(event.back, request),
                 event.frame, event.back.stream)


@device("reprocess-overtaken", strict=True, second=True)  # process_capture_result; S10.3.1 excepts the other way alone
def reprocess_overtaken(event, past):
    request = named(event, past, "result")
    if not request or request.is_vendors or request.kind != "reprocessing":
        return []
    normal = [later for later in past.later(request) if later.kind == "normal"]
    return (where(is_sound_end(event, request, past) and any(later.has_sound_end() for later in normal), event.frame)
            + [(event.frame, returned.stream) for returned in ordered(event, past, "ok")
               if any(later.is_filled(returned.stream) for later in normal)])


@device("good-after-error")  # S6, flush 2
def good_after_error(event, past):
    request = named(event, past, "result")
    return [(event.frame, returned.stream) for returned in buffers(event, past, "ok") if request.is_failed
            or (len(request.targets_of(returned.stream)) == 1 and request.buffer_errors(returned.stream))]


@device("acquire-fence")  # output_buffers, acquire_fence
def acquire_fence(event, past):
    return [(event.frame, returned.stream) for returned in all_back(event) if returned.acquire]


def is_own_fence(returned, target, version):
    """The release fence is none or the target's acquire fence, or nobody can tell."""
    if version == 1 and returned.release == UNKNOWN:
        return True
    return returned.release in (None, UNTOLD, target.fence) or target.fence == UNTOLD


@device("release-fence")  # S6, flush 2
def release_fence(event, past):
    found = []
    for returned in buffers(event, past, "error"):
        own = [target for target in named(event, past, "result").targets if target.buffer == returned.buffer]
        found += where(own and not any(is_own_fence(returned, target, past.version) for target in own),
                       event.frame, returned.stream)
    return found


# ---- the device: errors


@device("error-twice")  # follows
def error_twice(event, past):
    request = named(event, past, "error-request", "error-result", "error-buffer")
    if not request:
        return []
    if event.kind == "error-buffer":
        most = len(request.targets_of(event.stream)) if event.stream is not None else 1
        return where(most and len(request.buffer_errors(event.stream)) >= most, event.frame, event.stream)
    return where(len(request.all(event.kind)) >= (past.count if event.kind == "error-result" else 1), event.frame)


@device("error-beside-request-error")  # S6
def error_beside_request_error(event, past):
    request = named(event, past, "error-result", "error-buffer")
    return where(request and request.is_failed, event.frame, event.stream)


@device("request-error-late")  # S6, flush 3.4
def request_error_late(event, past):
    request = named(event, past, "error-request")
    return where(request and (request.has_something_good() or request.has_result_error or request.all("error-buffer")),
                 event.frame)


@device("error-for-good-result", second=True)  # S6, flush 3.1
def error_for_good_result(event, past):
    request = named(event, past, "error-result")
    return where(request and request.has_every_part("metadata"), event.frame)


@device("error-for-good-buffer")  # S6
def error_for_good_buffer(event, past):
    request = named(event, past, "error-buffer")
    targets = request.targets_of(event.stream) if request else []
    is_back_good = lambda target: any(is_good(returned) for returned, _ in request.returns_of(target))
    return where(targets and all(map(is_back_good, targets)), event.frame, event.stream)


@device("error-unknown-stream")  # error_stream
def error_unknown_stream(event, past):
    request = named(event, past, "error-buffer")
    return where(request and not request.targets_of(event.stream), event.frame, event.stream)


# ---- the device: what is left, or missing, where a flush or a close returns


def spoken_of(event, past):
    """Where a flush or a close returns, of a device that isn't dead: the requests of which it speaks."""
    if not is_point(event) or past.is_dead:
        return []
    return [r for r in past.clear() if is_spoken_of(r, event, past.begin_of(event))]


@device("flush-left")  # flush, 'should only return when', judged as must
def flush_left(event, past):
    return [(r.number, None) for r in spoken_of(event, past) if event.kind == "flush" and r.is_outstanding]


@device("close-left")  # S2.12 with process_capture_result
def close_left(event, past):
    return [(r.number, None) for r in spoken_of(event, past) if event.kind == "close" and r.is_outstanding]


def newly_complete(event, past):
    """The complete requests of which the flush or close is the first to speak."""
    return [r for r in spoken_of(event, past) if r.is_complete and not r.is_passed]


@device("failed-without-notice")  # S6
def failed_without_notice(event, past):
    return [(r.number, target.stream) for r in newly_complete(event, past) for target in r.unannounced()]


def newly_sound(event, past):
    return [r for r in newly_complete(event, past) if not r.is_failed and not r.is_batched]


@device("no-shutter")  # S2.9
def no_shutter(event, past):
    return [(r.number, None) for r in newly_sound(event, past) if r.has_something_good() and not r.has_shutter]


@device("missing-parts", strict=True, second=True)  # partial_result, flush 3.1
def missing_parts(event, past):
    return [(r.number, None) for r in newly_sound(event, past) if not r.has_result_error
            and sum(result.pack in ("metadata", "empty") for result in r.results()) < past.count]


# ---- times


MILLISECOND = 1_000_000
SLOW = {"open": 500, "init": 10, "template": 5, "configure": 1000, "flush": 1000, "close": 500}


def slow_call(event, past):
    """The (line, name, nanoseconds) of the call that the event ends, alone, where it took longer than it may. A close
    that has something to wait for may."""
    if event.kind not in SLOW or event.time is None:
        return []
    call = past.call_of(event)
    took = event.time - call.begin.event.time
    is_told = call.is_alone and not call.begin.is_busy and took > SLOW[event.kind] * MILLISECOND
    return [(event.line, f"slow-{event.kind}", took)] if is_told else []


# ---- the report


def order(fault):
    """Frames and streams in their order, none first."""
    return tuple(-1 if number is None else number for number in fault)


def faults_of(event, past):
    """The entries of each rule that the event breaks, strict ones too."""
    if past.is_void(event):
        return []
    told = [rule for rule in RULES if past.version == 2 or not rule.is_second]
    return [(rule, fault) for rule in told for fault in sorted(set(rule.function(event, past)), key=order)]


class Verdict(NamedTuple):
    report: list  # (line, rule, side, frame, stream), in order
    slow: list    # (line, name, nanoseconds)
    left: list    # the numbers of the requests that are outstanding at the end


def judge(log, is_strict=False):
    past, report, slow = Past(log.version, log.count, is_strict), [], []
    for event in log.events:
        faults = faults_of(event, past)
        report += [(event.line, rule.name, rule.side, *fault) for rule, fault in faults
                   if is_strict or not rule.is_strict]
        slow += slow_call(event, past) if event.is_end and not past.is_void(event) else []
        if (event.kind, event.stage) == ("open", "ok"):
            past = Past(log.version, log.count, is_strict)
        past.add(event, frozenset(rule.name for rule, _ in faults if rule.side == "framework"))
    return Verdict(report, slow, sorted(number for number, _ in outstanding(past)))


def report_lines(verdict):
    dash = lambda number: "-" if number is None else str(number)
    lines = [f"{line} {name} {side} {dash(frame)} {dash(stream)}" for line, name, side, frame, stream in verdict.report]
    lines += [f"slow {line} {name} {took}" for line, name, took in verdict.slow]
    if verdict.left:
        lines.append("open " + " ".join(map(str, verdict.left)))
    if verdict.report:
        lines.append("first " + verdict.report[0][2])
    return lines


def said_of(data, is_strict):
    """The lines that are written of a log, and the status."""
    try:
        verdict = judge(read(data), is_strict)
    except Refused as refusal:
        return [str(refusal)], 1
    return report_lines(verdict), 1 if verdict.report else 0


def judge_files(names, is_strict):
    worst = 0
    for name in names:
        with open(name, "rb") as file:
            lines, status = said_of(file.read(), is_strict)
        worst = max(worst, status)
        for line in lines:
            print(f"{name}: {line}")
    return worst


def main(words):
    options = [word for word in words if word.startswith("-")]
    names = [word for word in words if word not in options]
    if any(option not in ("--plain", "--strict") for option in options):
        print(__doc__, file=sys.stderr)
        return 2
    is_strict = "--strict" in options
    if names:
        return judge_files(names, is_strict)
    lines, status = said_of(sys.stdin.buffer.read(), is_strict)
    for line in lines:
        print(line)
    return status


if __name__ == "__main__":
    sys.exit(main(sys.argv[1:]))

"""The words of the rules, over the past of an event: what was heard since the last `open end ok`, that included; where
there is none, since the beginning.

What the note says of an event's `begin` (dead at its begin, the rules that its begin broke, ..) is kept with the begin,
as a Moment. All else is asked of what stands when it is asked.
"""
from dataclasses import dataclass, field
from typing import List, NamedTuple, Optional, Tuple

from hal_text import Event

FIRST_VENDOR_MODE = 0x8000


class Configuration(NamedTuple):
    """That of a `configure end ok`: what its begin asked for, and whether nothing else was configured at once."""
    place: int
    mode: int
    streams: Tuple
    most: Tuple
    is_known: bool

    @property
    def numbers(self):
        return [stream.stream for stream in self.streams]

    def max_buffers(self, stream):
        """Of the stream, 0 where it isn't named; of one that is named twice the first."""
        return next((most for number, most in self.most if number == stream), 0)


def gives_output(stream):
    return stream.direction in ("out", "bidi")


def takes_input(stream):
    return stream.direction in ("in", "bidi")


def has_output(streams):
    return any(map(gives_output, streams))


def inputs_in(streams):
    return sum(map(takes_input, streams))


class Moment(NamedTuple):
    """A begin, and what stood at it. broken: the names of the rules of the framework that it broke, strict ones too."""
    place: int
    event: Event
    broken: frozenset
    is_initialized: bool
    is_dead: bool
    is_surely_dead: bool
    is_flushing: bool
    is_busy: bool  # of a close: a request is in call or outstanding, or may be
    configuration: Optional[Configuration]


@dataclass
class Call:
    """A call that isn't a request, with those of its kind (templates: of its number) that were in call at once."""
    kind: str
    template: Optional[int]
    begins: List[Moment]
    ends: List[Event] = field(default_factory=list)

    @property
    def begin(self):
        return self.begins[0]

    @property
    def is_in_call(self):
        return len(self.ends) < len(self.begins)

    @property
    def is_alone(self):
        return len(self.begins) == 1


class Heard(NamedTuple):
    """A callback that stands for a request, and whether it came in a flush."""
    event: Event
    in_flush: bool


def is_good(returned):
    """Ok, and no early return, which may still fail."""
    return returned.status == "ok" and returned.release is None


def gives_metadata(event):
    return event.kind == "result" and event.pack == "metadata"


def gives_something_good(event):
    return gives_metadata(event) or any(map(is_good, event.buffers))


class Request:
    """One `request n begin`, and what stands for it."""

    def __init__(self, moment, version, count):
        self.moment = moment
        self.number = moment.event.frame
        self.targets = moment.event.targets
        self.input = moment.event.input
        self.version = version
        self.count = count
        self.end = None        # `request n end`
        self.end_place = None
        self.is_alone = True   # among requests and configures
        self.standing = []
        self.is_passed = False  # complete where a flush or a close returned that speaks of it
        self.is_left = False    # its number was begun again when it was done or refused

    # ---- its call

    @property
    def is_in_call(self):
        return self.end is None

    @property
    def is_accepted(self):
        return self.end is not None and self.end.stage == "ok"

    @property
    def is_refused(self):
        return self.end is not None and self.end.stage == "error"

    def is_accepted_before(self, place):
        return self.is_accepted and self.end_place < place

    # ---- its configuration

    @property
    def is_batched(self):
        configuration = self.moment.configuration
        return configuration is not None and (not configuration.is_known or configuration.mode != 0)

    @property
    def is_vendors(self):
        return self.moment.configuration is not None and self.moment.configuration.mode >= FIRST_VENDOR_MODE

    @property
    def kind(self):
        """reprocessing, normal, or unknown."""
        if self.version == 2:
            return "reprocessing" if self.input else "normal"
        configuration = self.moment.configuration
        may_have_input = configuration is not None and (not configuration.is_known or inputs_in(configuration.streams))
        return "unknown" if may_have_input else "normal"

    # ---- what stands for it

    def all(self, kind):
        return [heard for heard in self.standing if heard.event.kind == kind]

    @property
    def is_failed(self):
        return bool(self.all("error-request"))

    @property
    def has_result_error(self):
        return bool(self.all("error-result"))

    @property
    def has_shutter(self):
        return bool(self.all("shutter"))

    def buffer_errors(self, stream):
        """The `error n buffer:s`; stream None is `?`."""
        return [heard for heard in self.all("error-buffer") if heard.event.stream == stream]

    def targets_of(self, stream):
        return [target for target in self.targets if stream is not None and target.stream == stream]

    def results(self):
        return [heard.event for heard in self.all("result")]

    def has_part(self, number, *packs):
        return any(event.partial == number and event.pack in packs for event in self.results())

    def has_every_part(self, *packs):
        return all(self.has_part(number, *packs) for number in range(1, self.count + 1))

    def returns_of(self, target):
        """Where the target came back, under whatever stream: each time, with whether it came in a flush."""
        return [(returned, heard.in_flush) for heard in self.all("result") for returned in heard.event.buffers
                if returned.buffer == target.buffer]

    def returns_of_input(self):
        return [(heard.event.back, heard.in_flush) for heard in self.all("result")
                if self.input and heard.event.back and heard.event.back.buffer == self.input.buffer]

    def is_back(self, target):
        return bool(self.returns_of(target))

    def is_all_back(self):
        return all(map(self.is_back, self.targets)) and (not self.input or bool(self.returns_of_input()))

    def is_last_metadata(self, event):
        if event.pack == "empty":
            return self.is_batched
        return event.pack == "metadata" and (event.partial == self.count or not 1 <= event.partial <= self.count)

    @property
    def is_metadata_ended(self):
        return self.is_failed or self.has_result_error or any(map(self.is_last_metadata, self.results()))

    @property
    def is_ended(self):
        return self.is_metadata_ended and self.is_all_back()

    @property
    def is_outstanding(self):
        return self.is_accepted and not self.is_ended

    @property
    def is_complete(self):
        return self.is_accepted and self.is_ended

    @property
    def is_awaited(self):
        """Outstanding where `empty` with partial K ends metadata too."""
        return self.is_outstanding and not (self.has_part(self.count, "empty") and self.is_all_back())

    def unannounced(self):
        """The targets that are back in error with neither their own error nor that of the request."""
        if self.is_failed:
            return []
        return [target for target in self.targets if not self.buffer_errors(target.stream)
                and any(returned.status == "error" for returned, _ in self.returns_of(target))]

    def has_something_good(self):
        return any(map(gives_something_good, self.results()))

    @property
    def is_whole(self):
        """It has its shutter and all of its metadata."""
        packs = ("metadata", "empty") if self.is_batched else ("metadata",)
        return self.has_shutter and self.has_every_part(*packs) and not self.has_result_error

    @property
    def is_done(self):
        return self.is_passed or (self.is_complete and not self.unannounced() and (self.is_failed or self.is_whole))

    # ---- for the orders

    def is_filled(self, stream):
        """An ok buffer of it for the stream is back."""
        return any(returned.status == "ok" for target in self.targets_of(stream)
                   for returned, _ in self.returns_of(target))

    def has_sound_end(self):
        """Its last part stands, and not behind an error of its result or of the request."""
        for event, _ in self.standing:
            if event.kind in ("error-result", "error-request"):
                return False
            if gives_metadata(event) and event.partial == self.count:
                return True
        return False


class Past:
    """What was heard."""

    def __init__(self, version, count, is_strict):
        self.version = version
        self.count = count
        self.is_strict = is_strict
        self.end = 0             # the place of the event that comes next
        self.calls = []
        self.requests = []       # of each begin, in their order
        self.unclear = set()     # the numbers that were begun again while their request was live
        self.stood = set()       # (kind, stage) of the calls' lines, and kinds of callbacks, that stand
        self.accepted = []       # (place, number) of each `request end ok`
        self.configurations = []
        self.is_surely_dead = False
        self.named = {}          # of each buffer: the place of the last result that names it, of whatever frame

    # ---- calls

    def call_of(self, event):
        """The call in call that a begin joins or an end ends; none where there is none."""
        return next((call for call in reversed(self.calls) if call.is_in_call
                     and (call.kind, call.template) == (event.kind, event.template)), None)

    def begin_of(self, event):
        """The begin of the call or request that the event, an end, ends."""
        return self.last(event.frame).moment if event.kind == "request" else self.call_of(event).begin

    def is_within(self, *kinds):
        return any(call.is_in_call and call.kind in kinds for call in self.calls)

    def requests_in_call(self):
        return [request for request in self.requests if request.is_in_call]

    def stands(self, kind, stage=""):
        return (kind, stage) in self.stood

    @property
    def is_initialized(self):
        return self.stands("init", "ok")

    @property
    def is_uninitialized(self):
        """No init is in call, which may have returned already, and none has returned ok."""
        return not self.is_initialized and not self.is_within("init")

    @property
    def is_dead(self):
        return self.is_surely_dead or self.stands("error-device")

    @property
    def is_flushing(self):
        return self.is_within("flush")

    def is_void(self, event):
        """An end that stands for nothing: its begin doesn't stand, or its number was begun again since."""
        if not event.is_end:
            return False
        if event.kind != "request":
            return self.call_of(event) is None
        ended = self.ended_by(event)
        return ended is None or ended is not self.last(event.frame)

    def ended_by(self, event):
        """Of the requests of the number that are in call the first."""
        return next((r for r in self.requests if r.number == event.frame and r.is_in_call), None)

    # ---- requests

    def last(self, number):
        """What stands for the number: its last begin."""
        return next((request for request in reversed(self.requests) if request.number == number), None)

    def is_unclear(self, request):
        return request.number in self.unclear

    def is_live(self, number):
        request = self.last(number)
        if request is None:
            return False
        return self.is_unclear(request) or not (request.is_refused or request.is_done)

    def live(self, number):
        """The live request of the number, or none: nothing is asked of an unclear one."""
        return self.last(number) if self.is_live(number) and number not in self.unclear else None

    def clear(self):
        """The requests that stand, one for each number, of which something can be told."""
        standing = {request.number: request for request in self.requests}
        return [request for request in standing.values() if not self.is_unclear(request)]

    def is_busy(self):
        return bool(self.unclear) or any(request.is_in_call or request.is_outstanding for request in self.clear())

    def later(self, request):
        """Those that the device surely had after it. An unclear one is in no order."""
        if request.end is None or self.is_unclear(request):
            return []
        return [r for r in self.requests
                if r.moment.place > request.end_place and not r.is_refused and not self.is_unclear(r)]

    def following(self, request):
        return [r for r in self.later(request) if r.kind == request.kind != "unknown"]

    def held(self):
        """The targets whose buffers are at the device: also those of each request of a number that is unclear."""
        return [target for request in self.requests if self.may_hold(request) for target in request.targets
                if self.named.get(target.buffer, -1) < request.moment.place]

    def may_hold(self, request):
        if self.is_unclear(request):
            return not request.is_left
        return request is self.last(request.number) and self.is_live(request.number)

    def is_used(self, number):
        """It isn't above every number that was accepted."""
        return any(accepted >= number for _, accepted in self.accepted)

    # ---- the configuration

    @property
    def configuration(self):
        """The last, or none."""
        return self.configurations[-1] if self.configurations else None

    @property
    def streams(self):
        return self.configuration.streams if self.configuration else ()

    @property
    def is_known(self):
        """Where there is no configuration that is known too."""
        return self.configuration is None or self.configuration.is_known

    def has_settings(self):
        """A request was accepted since the configuration."""
        since = self.configuration.place if self.configuration else -1
        return any(place > since for place, _ in self.accepted)

    # ---- one event more

    def moment(self, event, broken):
        return Moment(self.end, event, broken, self.is_initialized, self.is_dead, self.is_surely_dead,
                      self.is_flushing, event.kind == "close" and self.is_busy(), self.configuration)

    def add(self, event, broken=frozenset()):
        """broken: the rules of the framework that the event, a begin, breaks."""
        if event.is_begin:
            self.add_begin(event, broken)
        elif event.is_end:
            self.add_end(event)
        else:
            self.add_callback(event)
        self.end += 1

    def add_begin(self, event, broken):
        moment = self.moment(event, broken)
        self.join(event)
        if event.kind == "request":
            self.add_request(Request(moment, self.version, self.count))
        elif self.call_of(event):
            self.call_of(event).begins.append(moment)
        else:
            self.calls.append(Call(event.kind, event.template, [moment]))
        self.stood.add((event.kind, "begin"))

    def join(self, event):
        """Requests that are in call while another request or a configure begins aren't alone."""
        if event.kind in ("request", "configure"):
            for request in self.requests_in_call():
                request.is_alone = False

    def add_request(self, request):
        before = self.last(request.number)
        if before and self.is_live(request.number):
            self.unclear.add(request.number)
        elif before:
            before.is_left = True
        request.is_alone = not self.requests_in_call() and not self.is_within("configure")
        self.requests.append(request)

    def add_end(self, event):
        is_void = self.is_void(event)
        if event.kind == "request":
            self.end_request(event, is_void)
        elif not is_void:
            self.end_call(event, self.call_of(event))
        if not is_void:
            self.stood.add((event.kind, event.stage))

    def end_request(self, event, is_void):
        ended = self.ended_by(event)
        if ended:
            ended.end, ended.end_place = event, self.end
        if not is_void and event.stage == "ok":
            self.accepted.append((self.end, event.frame))
        self.is_surely_dead |= not is_void and event.error == "ENODEV"

    def end_call(self, event, call):
        call.ends.append(event)
        if event.kind == "configure" and event.stage == "ok":
            asked = call.begin.event
            self.configurations.append(
                Configuration(self.end, asked.mode or 0, asked.streams, event.most, call.is_alone))
        self.is_surely_dead |= is_death(event, call)
        for request in self.clear():
            request.is_passed |= is_point(event) and request.is_complete and is_spoken_of(request, event, call.begin)

    def add_callback(self, event):
        for returned in event.buffers:
            self.named[returned.buffer] = self.end
        if event.frame is None:
            self.stood.add((event.kind, ""))
        elif self.is_live(event.frame):
            self.last(event.frame).standing.append(Heard(event, self.is_flushing))


def is_death(event, call):
    """Behind it the device is surely dead."""
    if event.stage == "null":
        return 1 <= event.template <= 6 and call.begin.is_initialized
    return event.kind != "open" and event.error == "ENODEV"


def is_point(event):
    """Where a flush or a close has returned, what is missing of a complete request is told."""
    return (event.kind, event.stage) in (("flush", "ok"), ("close", "end"))


def is_spoken_of(request, event, begin):
    """A close speaks of each request, a flush of those that were accepted before its begin."""
    return event.kind == "close" or request.is_accepted_before(begin.place)

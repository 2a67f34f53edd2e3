"""The words of the rules, each recomputed over the past of an event.

The past is what was heard since the last `open end ok`, that included; where there is none, since the beginning. A
callback that names a request that isn't live stands for nothing, nor does a second end of a request: they are never put
into the past.
"""


class Request:
    """One `request n begin` and what stands for it: what names n behind it, up to the next begin of n. Events are kept
    with their places in the past. Each word takes `before`: it speaks of what stands before that place."""

    def __init__(self, place, begin):
        self.place = place
        self.begin = begin
        self.number = begin.frame
        self.targets = begin.targets
        self.standing = []

    def stands(self, test, before):
        return any(place < before and test(event) for place, event in self.standing)

    def is_accepted(self, before):
        return self.stands(lambda e: e.kind == "request" and e.stage == "ok", before)

    def is_refused(self, before):
        return self.stands(lambda e: e.kind == "request" and e.stage == "error", before)

    def is_in_call(self, before):
        return not self.is_accepted(before) and not self.is_refused(before)

    def is_failed(self, before):
        return self.stands(lambda e: e.kind == "error-request", before)

    def has_result_error(self, before):
        return self.stands(lambda e: e.kind == "error-result", before)

    def has_buffer_error(self, stream, before):
        """`error n buffer:s` stands; stream None is `?`."""
        return self.stands(lambda e: e.kind == "error-buffer" and e.stream == stream, before)

    def has_shutter(self, before):
        return self.stands(lambda e: e.kind == "shutter", before)

    def has_part(self, number, before):
        return self.stands(lambda e: e.kind == "result" and e.pack == "metadata" and e.partial == number, before)

    def returns(self, before):
        """The buffers that its results named, each with the place of its result."""
        return [(place, returned) for place, event in self.standing if place < before and event.kind == "result"
                for returned in event.buffers]

    def is_back(self, target, before):
        return any(returned.buffer == target.buffer for _, returned in self.returns(before))

    def is_all_back(self, before):
        return all(self.is_back(target, before) for target in self.targets)

    def is_metadata_ended(self, count, before):
        last = lambda e: (e.kind == "result" and e.pack == "metadata"
                          and (e.partial == count or not 1 <= e.partial <= count))
        return self.stands(last, before) or self.has_result_error(before) or self.is_failed(before)

    def is_ended(self, count, before):
        return self.is_metadata_ended(count, before) and self.is_all_back(before)

    def is_outstanding(self, count, before):
        return self.is_accepted(before) and not self.is_ended(count, before)

    def is_complete(self, count, before):
        return self.is_accepted(before) and self.is_ended(count, before)

    def is_awaited(self, count, before):
        """Outstanding where the pack without entries and with the last number ends metadata too."""
        empty = self.stands(lambda e: e.kind == "result" and e.pack == "empty" and e.partial == count, before)
        ended = (empty or self.is_metadata_ended(count, before)) and self.is_all_back(before)
        return self.is_accepted(before) and not ended

    def unannounced(self, before):
        """The targets that are back in error with neither their own error nor that of the request."""
        if self.is_failed(before):
            return []
        back = {returned.buffer for _, returned in self.returns(before) if returned.status == "error"}
        return [target for target in self.targets
                if target.buffer in back and not self.has_buffer_error(target.stream, before)]

    def has_something_good(self, before):
        return self.stands(gives_something_good, before)

    def is_filled(self, stream, before):
        """An ok buffer of it for the stream is back."""
        buffers = {target.buffer for target in self.targets if target.stream == stream}
        return any(returned.status == "ok" and returned.buffer in buffers for _, returned in self.returns(before))

    def has_good(self, stream, before):
        """The stream's target is back good."""
        buffers = {target.buffer for target in self.targets if stream is not None and target.stream == stream}
        return any(is_good(returned) and returned.buffer in buffers for _, returned in self.returns(before))


def is_good(returned):
    """Ok, and no early return, which may still fail."""
    return returned.status == "ok" and returned.release is None


def gives_something_good(event):
    return event.kind == "result" and (event.pack == "metadata" or any(map(is_good, event.buffers)))


class Past:
    """What was heard, oldest first; count is the device's partial result count."""

    def __init__(self, count):
        self.count = count
        self.events = []
        self.requests = []  # of each begin, in their order: also those whose number was begun again
        self.points = []    # the places of events that is_point

    def add(self, event):
        place = len(self.events)
        self.events.append(event)
        if is_point(event):
            self.points.append(place)
        if event.kind == "request" and event.is_begin:
            self.requests.append(Request(place, event))
        elif event.frame is not None:
            self.last(event.frame).standing.append((place, event))

    @property
    def end(self):
        return len(self.events)

    # ---- requests, by number: the last begin

    def last(self, number):
        return next((r for r in reversed(self.requests) if r.number == number), None)

    def current(self, before=None):
        """The requests that stand, one for each number."""
        before = self.end if before is None else before
        standing = {r.number: r for r in self.requests if r.place < before}
        return list(standing.values())

    def is_passed(self, request, before):
        """Complete before a `flush end ok` before whose begin it was accepted, or before a `close end`."""
        return any(request.place < place < before and request.is_complete(self.count, place)
                   and self.is_in_time(request, self.events[place], place) for place in self.points)

    def is_in_time(self, request, event, place):
        """The point, which stands or would stand at the place, speaks of the request."""
        return event.kind == "close" or request.is_accepted(self.begin_of(event, place))

    def is_done(self, request, before):
        if self.is_passed(request, before):
            return True
        if not request.is_complete(self.count, before) or request.unannounced(before):
            return False
        whole = (request.has_shutter(before) and not request.has_result_error(before)
                 and all(request.has_part(number, before) for number in range(1, self.count + 1)))
        return request.is_failed(before) or whole

    def is_live(self, request, before):
        return not request.is_refused(before) and not self.is_done(request, before)

    def live(self, number):
        """The live request of the number, or none."""
        request = self.last(number)
        return request if request and self.is_live(request, self.end) else None

    def later(self, request):
        """Each request that was begun behind it and isn't refused, also one whose number was begun again."""
        return [r for r in self.requests if r.place > request.place and not r.is_refused(self.end)]

    def held(self, before):
        """The targets at the device: those of live requests that aren't back."""
        return [target for request in self.current(before) if self.is_live(request, before)
                for target in request.targets if not request.is_back(target, before)]

    def accepted_numbers(self, before):
        return [e.frame for e in self.events[:before] if e.kind == "request" and e.stage == "ok"]

    # ---- calls

    def begin_of(self, event, before):
        """The place of the begin of the call that the event ends. Where the device was opened anew since, no begin
        stands, and nothing before it: 0."""
        return max((place for place, e in enumerate(self.events[:before])
                    if e.is_begin and e.kind == event.kind and e.frame == event.frame), default=0)

    def is_within(self, kind, before):
        """A call of the kind, not request, has begun and not ended."""
        calls = [e for e in self.events[:before] if e.kind == kind]
        return bool(calls) and calls[-1].is_begin

    def is_flushing(self, before):
        return self.is_within("flush", before)

    def in_call(self, before):
        """The requests in call."""
        return [r for r in self.current(before) if r.is_in_call(before)]

    def stands(self, kind, stage, before):
        return any(e.kind == kind and e.stage == stage for e in self.events[:before])

    def is_initialized(self, before):
        return self.stands("init", "ok", before)

    def is_dead(self, before):
        return any(self.is_death(event, place) for place, event in enumerate(self.events[:before]))

    def is_death(self, event, place):
        if event.kind == "template" and event.stage == "null":
            return 1 <= event.template <= 6 and self.is_initialized(self.begin_of(event, place))
        return event.kind == "error-device" or (event.kind != "open" and event.error == "ENODEV")

    # ---- the configuration

    def configured(self, before):
        """The place of the last `configure end ok`, or none."""
        places = [place for place, e in enumerate(self.events[:before]) if e.kind == "configure" and e.stage == "ok"]
        return places[-1] if places else None

    def streams(self, before):
        place = self.configured(before)
        return () if place is None else self.asked(self.events[place], place)

    def asked(self, event, place):
        """The streams of the begin of a configure that ends."""
        return self.events[self.begin_of(event, place)].streams

    def most(self, stream, before):
        """max_buffers of the stream in the configuration; 0 where it isn't named."""
        place = self.configured(before)
        named = () if place is None else self.events[place].most
        return next((most for number, most in named if number == stream), 0)

    def has_settings(self, before):
        """A request was accepted since the configuration."""
        place = self.configured(before)
        return any(e.kind == "request" and e.stage == "ok" for e in self.events[0 if place is None else place:before])


def is_point(event):
    """Where a flush or a close has returned, what is missing of a complete request is told."""
    return (event.kind, event.stage) in (("flush", "ok"), ("close", "end"))

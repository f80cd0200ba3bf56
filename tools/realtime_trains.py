"""What tools/realtime has said of a train, and the lines that say what is wanted now.

Event 2 i of a train is the arrival at its call i, and event 2 i + 1 the departure from
it. `said` are the forecasts and the reports that stand in the program if it accepted all
lines, so a line is written only where something else is wanted. The order of the lines
of a train is such that none of them is against a report that stands there: what a report
would be against is taken back before it.
"""

import json

from realtime_feed import TIMES

GONE_BACK = "a train, or a part at its end, that is cancelled and cannot come back"
END_STOP = "another stop at the first or last call"
AGAINST_ORDER = "times of the calls that run backwards"
BACKWARDS = "a time before that of an earlier event which is reported"
AGAINST_REPORT = "a forecast against a reported time"
NO_ROOM = "more new calls or trains than --spare-calls and --spare-trains allow"
OUT_OF_DAY = "a time outside of the 100 hours of the service day"


def quoted(text):
    return json.dumps(text, ensure_ascii=False)


def time_text(seconds):
    return f"{seconds // 3600:02}:{seconds // 60 % 60:02}:{seconds % 60:02}"


class Room:
    """How many trains and calls can still be added."""

    def __init__(self, trains, calls):
        self.trains, self.calls = trains, calls

    def take(self, trains, calls):
        """Takes room for some trains and calls, if there is so much. Answers whether there is."""
        if trains > self.trains or calls > self.calls:
            return False
        self.trains, self.calls = self.trains - trains, self.calls - calls
        return True


class Train:
    """A train as the program has it after the lines that were written."""

    __slots__ = (
        "trip", "date", "base", "calls", "scheduled", "head", "labels", "stops", "next_label", "first", "last",
        "forecasts", "reports", "is_cancelled", "is_extra", "is_changed", "room",
    )  # fmt: skip

    def __init__(self, trip, date, base, calls, room, is_extra=False):
        self.trip, self.date, self.base, self.calls = trip, date, base, calls
        self.room, self.is_extra = room, is_extra
        self.scheduled = calls.scheduled
        self.head = f'"trip":{quoted(trip)},"date":"{date}",'
        # Of each call its label, and the stop, which is None where the call is taken out of the middle.
        self.labels, self.stops = [*range(len(calls.stops))], [*calls.stops]
        # The ends of what is left of the train, which have no arrival and no departure.
        self.next_label, self.first, self.last = len(self.labels), 0, len(self.labels) - 1
        self.forecasts, self.reports = {}, {}
        self.is_cancelled, self.is_changed = False, False

    def name(self):
        return f"trip {self.trip} of {self.date}"

    def is_live(self, event):
        return 2 * self.first < event <= 2 * self.last and self.stops[event >> 1] is not None

    def event_line(self, version, kind, event, rest=""):
        side = "dep" if event & 1 else "arr"
        return f'{{"v":{version},"type":"{kind}",{self.head}"call":{self.labels[event >> 1]},"event":"{side}"{rest}}}\n'

    def timed_line(self, version, kind, event, time):
        return self.event_line(version, kind, event, f',"time":"{time_text(time)}"')

    def stretch_line(self, kind, begin, end, rest=""):
        ends = f'"from":{self.labels[begin]},"to":{self.labels[end]}'
        return f'{{"v":1,"type":"{kind}",{self.head}{ends}{rest}}}\n'

    def extra_line(self, route):
        calls = ",".join(self.call_text(call) for call in range(len(self.stops)))
        return f'{{"v":1,"type":"extra",{self.head}"route":{quoted(route)},"calls":[{calls}]}}\n'

    def call_text(self, call, stop=None):
        arrival, departure = map(time_text, self.scheduled[2 * call : 2 * call + 2])
        return f'{{"stop":{quoted(stop or self.stops[call])},"arr":"{arrival}","dep":"{departure}"}}'

    # Calls that are taken out, are there again or are at another stop.

    def take_back_reports(self, begin, end):
        """Yields the lines by which no event from the one to the other is reported."""
        for event in sorted(event for event in self.reports if begin <= event <= end):
            del self.reports[event]
            yield self.event_line(2, "correct", event, ',"time":null')

    def forget(self, begin, end):
        for event in [event for event in self.forecasts if begin <= event <= end]:
            del self.forecasts[event]

    def cancel(self, begin, end):
        """Yields the lines by which the train does not run from one call to a later one."""
        yield from self.take_back_reports(2 * begin + 1, 2 * end)
        yield self.stretch_line("cancel", begin, end)
        self.forget(2 * begin + 1, 2 * end)

    def cancel_all(self):
        if not self.is_cancelled:
            yield from self.cancel(self.first, self.last)
            self.is_cancelled = True

    def change_calls(self, changes, kept, tell):
        """Yields the lines by which the train calls as wanted.

        The changes have the stop, or None, of calls that are not as scheduled. A test `kept`
        holds for calls that stay as they are where the changes do not name them.
        """
        stops = [changes.get(call, stop) for call, stop in enumerate(self.calls.stops)]
        for call, stop in enumerate(self.stops):
            if call not in changes and stop != stops[call] and kept(call):
                stops[call] = stop
        outside = [*range(self.first), *range(self.last + 1, len(stops))]
        if any(stops[call] is not None and not kept(call) for call in outside):
            tell(GONE_BACK, self.name())
        served = [call for call in range(self.first, self.last + 1) if stops[call] is not None]
        for end in (0, -1):
            while served and self.stops[served[end]] is None:
                tell(GONE_BACK, self.name())
                stops[served.pop(end)] = None
            if served and self.stops[served[end]] != stops[served[end]]:
                tell(END_STOP, self.name())
                stops[served[end]] = self.stops[served[end]]
        self.is_changed = True
        if len(served) < 2:
            yield from self.cancel_all()
            return
        same = [call for call in served if stops[call] == self.stops[call]]
        for begin, end in zip(same, same[1:]):
            if any(stops[call] != self.stops[call] for call in range(begin + 1, end)):
                yield from self.reroute(begin, end, stops, tell)
        for begin, end in ((self.first, served[0]), (served[-1], self.last)):
            if begin < end:
                yield from self.cancel(begin, end)
        self.first, self.last = served[0], served[-1]

    def reroute(self, begin, end, stops, tell):
        """Yields the lines by which the calls between two calls are those of the wanted stops."""
        new = [call for call in range(begin + 1, end) if stops[call] is not None]
        labels = {call: self.next_label + place for place, call in enumerate(new)}
        events = [(2 * begin + 1, self.labels[begin])]
        events += [(2 * call + side, labels[call]) for call in new for side in (0, 1)]
        events.append((2 * end, self.labels[end]))
        keys = [(self.scheduled[event], label, event & 1) for event, label in events]
        if not all(u < v for u, v in zip(keys, keys[1:])):
            tell(AGAINST_ORDER, self.name())
            return
        if not self.room.take(0, len(new)):
            tell(NO_ROOM, self.name())
            return
        yield from self.take_back_reports(2 * begin + 2, 2 * self.last)
        via = ",".join(self.call_text(call, stops[call]) for call in new)
        yield self.stretch_line("reroute", begin, end, f',"via":[{via}]')
        self.forget(2 * begin + 2, 2 * end - 1)
        for call in range(begin + 1, end):
            self.stops[call], self.labels[call] = stops[call], labels.get(call)
        self.next_label += len(new)

    # Times.

    def say(self, forecasts, reports, changes, kept_until, tell):
        """Yields the lines by which the program has these forecasts and reports, and changed calls, and no others.

        What was said for a time before `kept_until` stays where nothing else is wanted.
        """
        if self.is_cancelled:
            is_past = self.scheduled[-1] < kept_until - self.base
            if len(self.stops) - sum(stop is None for stop in changes.values()) > 1 and not is_past:
                tell(GONE_BACK, self.name())
            return
        if changes or self.is_changed:
            # A call stays out, or where it is, when its scheduled departure is past.
            yield from self.change_calls(
                changes, lambda call: self.scheduled[2 * call + 1] < kept_until - self.base, tell
            )
            if self.is_cancelled:
                return
        if kept_until:
            self.keep_past(forecasts, reports, kept_until - self.base)
        forecasts, reports = self.sayable(forecasts, reports, tell)
        if self.reports or reports:
            yield from self.say_reports(reports)
        said = self.forecasts
        if said != forecasts:
            for event in [event for event in said if event not in forecasts and event not in reports]:
                del said[event]
                yield self.event_line(2, "withdraw", event)
            for event, time in forecasts.items():
                # A forecast of the scheduled time changes nothing where none stands.
                if said.get(event, self.scheduled[event]) != time:
                    said[event] = time
                    yield self.timed_line(1, "forecast", event, time)

    def keep_past(self, forecasts, reports, now):
        for event, time in self.reports.items():
            if event not in reports and event not in forecasts:
                reports[event] = time
        for event, time in self.forecasts.items():
            if time < now and event not in reports and event not in forecasts:
                forecasts[event] = time

    def sayable(self, forecasts, reports, tell):
        """Those of the forecasts and reports that no line of the program's rules refuses, in the order of the train."""
        for some in (forecasts, reports):
            for event in [event for event in some if not self.is_live(event) or not 0 <= some[event] < TIMES]:
                if self.is_live(event):
                    tell(OUT_OF_DAY, self.name())
                del some[event]
        if not reports:
            return forecasts, reports
        last, fitting = 0, {}
        for event in sorted(reports):
            if reports[event] < last:
                tell(BACKWARDS, self.name())
            else:
                fitting[event] = last = reports[event]
        low, ordered = 0, {}
        for event in range(1, 2 * len(self.stops) - 1):
            low = fitting.get(event, low)
            if event in forecasts and event not in fitting and forecasts[event] >= low:
                ordered[event] = forecasts[event]
        high = TIMES
        for event in range(2 * len(self.stops) - 2, 0, -1):
            high = fitting.get(event, high)
            if event in ordered and ordered[event] > high:
                del ordered[event]
        if any(event not in ordered and event not in fitting for event in forecasts):
            tell(AGAINST_REPORT, self.name())
        return ordered, fitting

    def say_reports(self, wanted):
        """Yields the lines of reports.

        First those that go, then those that get later, from the last to the first, then those that get earlier, from
        the first to the last, and then the new ones: so each goes with all that stand there.
        """
        said = self.reports
        for event in sorted(event for event in said if event not in wanted):
            del said[event]
            yield self.event_line(2, "correct", event, ',"time":null')
        both = sorted(said)
        for event in [event for event in reversed(both) if wanted[event] > said[event]] + [
            event for event in both if wanted[event] < said[event]
        ]:
            said[event] = wanted[event]
            yield self.timed_line(2, "correct", event, wanted[event])
        for event, time in wanted.items():
            if event not in said:
                said[event] = time
                yield self.timed_line(1, "report", event, time)

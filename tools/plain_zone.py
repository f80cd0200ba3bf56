"""Zone texts and the bases of service days as the definitions of crates/service_zones have them."""

import re
from calendar import monthrange
from datetime import date, timedelta

NAME = r"(?:[A-Za-z]{3,}|<[A-Za-z0-9+-]{3,}>)"
OFFSET = r"[+-]?[0-9]{1,2}(?::[0-9]{2})?"
CHANGE = r"M[0-9]{1,2}\.[0-9]\.[0-9](?:/[+-]?[0-9]{1,3})?"
ZONE = re.compile(f"{NAME}({OFFSET})(?:{NAME}({OFFSET})?,({CHANGE}),({CHANGE}))?")
HOUR = 3_600
DAY = 86_400
LEAST_DAY, LONGEST_DAY = 22 * HOUR, 26 * HOUR
# A text of universal time, which is the zone where none is given.
UTC = "UTC0"


def read_zone(text):
    """The offset and summer time of a zone text; or None where the text is none.

    Summer time is None, or its offset, its start and its end. An offset is in seconds
    west of UTC. A change is a month, a week, a weekday from 0 for Sunday, and hours.
    """
    parts = ZONE.fullmatch(text)
    if not parts:
        return None
    offset_text, summer_text, start_text, end_text = parts.groups()
    offset = read_offset(offset_text)
    if offset is None or start_text is None:
        return None if offset is None else (offset, None)
    summer_offset = offset - HOUR if summer_text is None else read_offset(summer_text)
    summer = summer_offset, read_change(start_text), read_change(end_text)
    return None if None in summer else (offset, summer)


def read_offset(text):
    """The seconds west of UTC; or None where the hours or the minutes are too many."""
    hours, _, minutes = text.lstrip("+-").partition(":")
    if int(hours) > 24 or int(minutes or 0) > 59:
        return None
    seconds = HOUR * int(hours) + 60 * int(minutes or 0)
    return -seconds if text.startswith("-") else seconds


def read_change(text):
    """The month, the week, the weekday and the hours of `Mm.w.d/hours`; or None where one is out of its range."""
    rule, _, hours = text.removeprefix("M").partition("/")
    month, week, weekday = map(int, rule.split("."))
    hours = int(hours or 2)
    fits = 1 <= month <= 12 and 1 <= week <= 5 and weekday <= 6 and -167 <= hours <= 167
    return (month, week, weekday, hours) if fits else None


def hour_of_change(year, change):
    """The hours of a change in a year, counted from the beginning of 1 January of the year 1."""
    month, week, weekday, hours = change
    days = [date(year, month, day) for day in range(1, monthrange(year, month)[1] + 1)]
    days = [day for day in days if day.isoweekday() % 7 == weekday]
    day = days[-1] if week == 5 else days[week - 1]
    return 24 * day.toordinal() + hours


def west(zone, day):
    """The offset that counts on a date: the second one where the last change up to its noon is a start."""
    offset, summer = zone
    if summer is None:
        return offset
    summer_offset, start, end = summer
    noon = 24 * day.toordinal() + 12
    changes = []
    for year in (day.year - 1, day.year, day.year + 1):
        changes += [(hour_of_change(year, start), 0), (hour_of_change(year, end), 1)]
    past = [change for change in changes if change[0] <= noon]
    return summer_offset if past and max(past)[1] == 0 else offset


def bases(zone, first, days):
    """The base of each loaded day, in seconds; and the first day that is too short or too long, or None."""
    dates = [first + timedelta(day) for day in range(days)]
    found = [DAY * day + west(zone, at) - west(zone, first) for day, at in enumerate(dates)]
    steps = [found[day] - found[day - 1] for day in range(1, days)]
    odd = [day for day, step in enumerate(steps, 1) if not LEAST_DAY <= step <= LONGEST_DAY]
    return found, (odd[0] if odd else None)

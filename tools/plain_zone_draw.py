"""Draws zone texts for tools/compare and tools/fuzz: of real places, of clocks that change near a day, broken ones."""

from calendar import monthrange
from datetime import date, timedelta

from plain_feed import MONDAY
from plain_zone import DAY, HOUR, bases, hour_of_change, read_zone

PLACES = (
    "CET-1CEST,M3.5.0,M10.5.0/3", "GMT0BST,M3.5.0/1,M10.5.0", "IST-1GMT0,M10.5.0,M3.5.0/1",
    "EET-2EEST,M3.4.4/50,M10.4.4/50", "EST5EDT,M3.2.0,M11.1.0", "NST3:30NDT,M3.2.0,M11.1.0",
    "<-02>2<-01>,M3.5.0/-1,M10.5.0/0", "<-04>4<-03>,M9.1.6/24,M4.1.6/24", "AEST-10AEDT,M10.1.0,M4.1.0/3",
    "<+1030>-10:30<+11>-11,M10.1.0,M4.1.0", "<+1245>-12:45<+1345>,M9.5.0/2:45,M4.1.0/3:45",
    "<+1245>-12:45<+1345>,M9.5.0/2,M4.1.0/3", "<+00>0<+02>-2,M3.5.0/1,M10.5.0/3", "<+0530>-5:30", "<+0545>-5:45",
    "UTC0",
)  # fmt: skip
NAMES = ("AAA", "abc", "EastSide", "<+0530>", "<-03>", "<A-1>", "<000>")
HOURS = (-167, -150, -36, -25, -24, -13, -12, -11, -1, 0, 1, 2, 2, 2, 3, 11, 12, 13, 14, 24, 35, 36, 37, 100, 166, 167)
# How many seconds the second offset is above the first; None where it is left out.
STEPS = (None, None, None, -3_600, -3_600, 3_600, 3_600, -1_800, 1_800, -7_200, 7_200, -7_260, 7_260, -10_800, 60, 0)
FURTHER = (0, 0, 1, -1, 7, 30, 150, 182, 210, -182, 364)
BROKEN = (
    "", "A", "AA0", "<+01-1", "<+1>-1", "CET", "AAA25", "AAA001", "AAA0:60", "AAA0:5", "AAA0:00:00", "AAA0 ", " AAA0",
    "CET-1CEST", "CET-1CEST,M3.5.0", "CET-1,M3.5.0,M10.5.0", "CET-1CEST,M0.5.0,M10.5.0", "CET-1CEST,M13.5.0,M10.5.0",
    "CET-1CEST,M3.0.0,M10.5.0", "CET-1CEST,M3.6.0,M10.5.0", "CET-1CEST,M3.5.7,M10.5.0", "CET-1CEST,M3.5.0/168,M10.5.0",
    "CET-1CEST,M3.5.0,M10.5.0/-168", "CET-1CEST,J60,J300", "CET-1CEST,59,299", "CET-1CEST,M3.5.0,M10.5.0,",
    "CET-1CEST;M3.5.0;M10.5.0", "Europe/Berlin", ":CET-1",
)  # fmt: skip
SIGNS = "0123456789+-:,./M<>AzJ \u00e4"


def zone_options(random):
    """A zone, which is broken now and then, the first day, most times near a change of its clock, and how many days."""
    pick = random.choice
    days = 31 if random.randrange(100) == 0 else pick((2, 2, 2, 2, 2, 3, 3, 4))
    way = random.randrange(8)
    if way < 3:
        zone, first = place(random, days)
    else:
        first = pick((MONDAY, MONDAY, date(2026, 1, 1) + timedelta(days=random.randrange(365)), date(2100, 12, 31)))
        zone = zone_near(random, first, days)
    if way == 7:
        zone = pick((pick(BROKEN), zone_mutated(random, zone)))
    return {"zone": zone, "from": first.strftime("%Y%m%d"), "days": days}


def place(random, days):
    """The zone of a real place, and a first day near a change of its clock in 2026."""
    text = random.choice(PLACES)
    zone = read_zone(text)
    changes = zone[1][1:] if zone and zone[1] else ()
    at = [date.fromordinal(hour_of_change(2026, change) // 24) for change in changes] or [MONDAY]
    return text, random.choice(at) - timedelta(days=loaded_day(random, days))


def loaded_day(random, days):
    """The number of a loaded day, most times one behind the first, or of a day beside the loaded ones."""
    return random.choice((*[random.randrange(1, days)] * 3, random.randrange(-1, days + 1)))


def zone_near(random, first, days):
    """A zone whose clock changes at about a loaded day, if it has summer time."""
    pick = random.choice
    offset = pick((0, HOUR, -HOUR, 5 * HOUR, -10 * HOUR, 19_800, -20_700, 86_400, -86_400, 89_940))
    text = pick(NAMES) + offset_text(random, offset)
    if random.randrange(8) == 0:
        return text
    step = pick(STEPS)
    second = "" if step is None or abs(offset + step) > 89_940 else offset_text(random, offset + step)
    day = first + timedelta(days=loaded_day(random, days))
    changes = [change_text(random, day), change_text(random, day + timedelta(days=pick(FURTHER)))]
    random.shuffle(changes)
    return f"{text}{pick(NAMES)}{second},{','.join(changes)}"


def changing_zone(random, first, days):
    """A zone in which a loaded day has more or less than 24 hours, and none is too short or too long."""
    while True:
        text = zone_near(random, first, days)
        found, odd_day = bases(read_zone(text), first, days)
        if odd_day is None and found != [DAY * day for day in range(days)]:
            return text


def offset_text(random, seconds):
    """An offset west of UTC in one of its forms."""
    sign = "-" if seconds < 0 else random.choice(("", "", "+")) if seconds else random.choice(("", "+", "-"))
    hours, minutes = abs(seconds) // HOUR, abs(seconds) // 60 % 60
    hours = random.choice((f"{hours}", f"{hours:02}"))
    return sign + hours + (f":{minutes:02}" if minutes or random.randrange(4) == 0 else "")


def change_text(random, day):
    """A change within two days of a day, where the date of its rule may be up to a week away."""
    hours = random.choice(HOURS)
    at = day - timedelta(days=hours // 24)
    week = (at.day + 6) // 7
    if at.day + 7 > monthrange(at.year, at.month)[1] and random.randrange(2):
        week = 5
    month = random.choice((f"{at.month}", f"{at.month:02}"))
    forms = (f"/{hours}", f"/{hours:+}", f"/{hours:03}" if hours >= 0 else f"/{hours:04}")
    rule = f"M{month}.{week}.{at.isoweekday() % 7}"
    return rule if hours == 2 and random.randrange(2) else rule + random.choice(forms)


def zone_mutated(random, text):
    """A zone text with one character put in, taken out or changed; it may be one still."""
    at = random.randrange(len(text))
    new = random.choice(("", random.choice(SIGNS), random.choice(SIGNS) + text[at], text[at] * 2))
    return text[:at] + new + text[at + 1 :]

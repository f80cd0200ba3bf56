"""The words of the program as docs/FORMATS.md has them."""

from datetime import date

from plain_tables import is_date, is_number
from plain_zone import UTC, bases, read_zone

RANGES = {
    "days": (1, 31),
    "slack": (0, 50),
    "stop": (0, 3_600),
    "change": (1, 3_600),
    "window": (0, 3_600),
    "spare-trains": (0, 2_000),
    "spare-calls": (0, 40_000),
    "overrides": (0, 100_000),
    "workers": (1, 16),
    "rides": (1, 8),
}
COMMANDS = "times", "serve", "check", "plans", "watch", "journal", "restart", "follow", "desk", "gen"
# The options whose values are no numbers.
TEXTS = ("from", "zone")
USAGE = "usage: traind COMMAND FEED --from DATE or traind gen N"


def read_words(words):
    """The command, its FEED or N, and the options by name, each with its value; or None where the words are others."""
    if not words or words[0] not in COMMANDS:
        return None
    given = parts(words[1:])
    if given is None or given[0] is None:
        return None
    main, options = given
    if "rides" in options and words[0] != "plans":
        return None
    if words[0] == "gen":
        if options.keys() - {"workers"} or not (is_number(main, 100_000) and int(main) > 0):
            return None
    elif "from" not in options:
        return None
    values = {option: value_of(option, text) for option, text in options.items()}
    if None in values.values() or (words[0] != "gen" and not has_usual_days(values)):
        return None
    return words[0], main, values


def has_usual_days(values):
    """Whether no loaded day is too short or too long in the zone."""
    zone = read_zone(values.get("zone", UTC))
    _, odd_day = bases(zone, values["from"], values.get("days", 1))
    return odd_day is None


def parts(words):
    """The word that is no option, or None where there is none, and the text of each option; or None."""
    main, options, rest = [], {}, list(words)
    while rest:
        word = rest.pop(0)
        if word == "--":
            main, rest = main + rest, []
        elif word == "-" or not word.startswith("-"):
            main.append(word)
        else:
            option, equals, text = word.partition("=")
            option = option.removeprefix("--") if option.startswith("--") else None
            if option in options or option not in (*TEXTS, *RANGES):
                return None
            if not equals:
                if not rest or (rest[0].startswith("-") and rest[0] != "-"):
                    return None
                text = rest.pop(0)
            options[option] = text
    return None if len(main) > 1 else ((main or [None])[0], options)


def value_of(option, text):
    """The value of an option, which is a date, a zone text or a number; or None where it is none."""
    if option == "from":
        is_first = is_date(text) and 1900 <= int(text[:4]) <= 2100
        return date(int(text[:4]), int(text[4:6]), int(text[6:])) if is_first else None
    if option == "zone":
        return text if read_zone(text) else None
    least, most = RANGES[option]
    return int(text) if is_number(text, most) and int(text) >= least else None

"""Datetimes and timespans: the forms that the engine reads (docs/LANGUAGE.md, "Commands"), and those that are rewritten for it."""
import datetime
import re
from fractions import Fraction

TICKS = 10_000_000
MONTHS = {name: number for number, name in enumerate("Jan Feb Mar Apr May Jun Jul Aug Sep Oct Nov Dec".split(), 1)}
MONTH = "(?:" + "|".join(MONTHS) + ")"

# A day that each year has, or the 29th of February of a leap year. The first and last years are left to the exact reading.
DAY = (
    "(?:0[13578]|1[02])-(?:0[1-9]|[12][0-9]|3[01])|(?:0[469]|11)-(?:0[1-9]|[12][0-9]|30)|02-(?:0[1-9]|1[0-9]|2[0-8])"
)
LEAP = "[0-9]{2}(?:0[48]|[2468][048]|[13579][26])|(?:[02468][048]|[13579][26])00"
DATE = f"(?!000[01]|9999)(?:[0-9]{{4}}-(?:{DAY})|(?:{LEAP})-02-29)"
TIME = "(?:[01][0-9]|2[0-3]):[0-5][0-9](?::[0-5][0-9](?:\\.[0-9]{1,9})?)?"
ZONE = "(?:Z|[+-](?:[01][0-9]|2[0-3]):[0-5][0-9])"
PLAIN = f"{DATE}(?:[T ]{TIME}{ZONE}?)?"
PLAIN_WITH_ZONE = f"{DATE}[T ]{TIME}{ZONE}"

# The shape of a datetime, with a 0 for each digit, and what it begins with, up to the minutes and one sign more.
SHAPE = "(?:0000-00-00(?:[T ]00:00(?::00(?:\\.0{1,9})?)?(?:Z|[+-]00:00)?)?)?"
HEAD = re.compile(f"(?:{DATE}(?:[T ](?:[01][0-9]|2[0-3]):[0-5][0-9][:Z+-]?)?)?")
OFFSET = re.compile("[+-](?:[01][0-9]|2[0-3]):[0-5][0-9]")

CLOCK = "([0-9]{2}:[0-9]{2}(?::[0-9]{2}(?:[.,][0-9]+)?)?)"
LOOSE = re.compile(f"([0-9]{{4}})([-/])([0-9]{{2}})\\2([0-9]{{2}})(?:[Tt _]{CLOCK} ?(Z|z|UTC|GMT|[+-][0-9]{{2}}(?::?[0-9]{{2}})?)?)?")
APACHE = re.compile(f"([0-9]{{2}})/({MONTH})/([0-9]{{4}}):([0-9]{{2}}:[0-9]{{2}}:[0-9]{{2}}) ([+-][0-9]{{2}})([0-9]{{2}})")
APACHE_LINES = re.compile(f"^[0-9]{{2}}/{MONTH}/[0-9]{{4}}:(?:[01][0-9]|2[0-3]):[0-5][0-9]:[0-5][0-9] [+-](?:[01][0-9]|2[0-3])[0-5][0-9]$", re.M)
SYSLOG_LINES = re.compile(f"^{MONTH} [ 0-3][0-9] (?:[01][0-9]|2[0-3]):[0-5][0-9]:[0-5][0-9](?:\\.[0-9]{{1,9}})?$", re.M)
SYSLOG = re.compile(f"({MONTH}) {{1,2}}([0-9]{{1,2}}) (?:([0-9]{{4}}) )?([0-9]{{2}}:[0-9]{{2}}:[0-9]{{2}}(?:\\.[0-9]+)?)")
HTTP = re.compile(f"(?:Mon|Tue|Wed|Thu|Fri|Sat|Sun), ([0-9]{{2}}) ({MONTH}) ([0-9]{{4}}) ([0-9]{{2}}:[0-9]{{2}}:[0-9]{{2}}) GMT")
# Seconds, or thousandths, millionths or billionths of one, since 1970, told apart by their number of digits.
EPOCH = re.compile("([0-9]{9,10}|[0-9]{12,13}|[0-9]{15,16}|[0-9]{18,19})(?:\\.([0-9]+))?")
MOST_HEADS = 100_000
SIXTIES = frozenset(("", "0", "1", "2", "3", "4", "5"))
STRICT_TIME = re.compile(TIME)
STRICT_ZONE = re.compile(ZONE)
EPOCH_START = datetime.datetime(1970, 1, 1)

SPAN_CLOCK = "-?(?:[0-9]{1,7}\\.)?(?:[01]?[0-9]|2[0-3]):[0-5]?[0-9]:[0-5]?[0-9](?:\\.[0-9]{1,7})?"
SPAN_UNIT = "-?[0-9]{1,6}(?:(?:\\.[0-9]{1,7})?[dhms]|(?:\\.[0-9]{1,4})?ms|(?:\\.[0-9])?microsecond|tick)"
SPAN = f"(?:{SPAN_CLOCK}|{SPAN_UNIT}|[0-9]{{1,7}})"
EXACT_CLOCK = re.compile("(-)?(?:([0-9]+)\\.)?([0-9]{1,2}):([0-9]{1,2}):([0-9]{1,2})(?:\\.([0-9]{1,7}))?")
EXACT_UNIT = re.compile("(-)?([0-9]+(?:\\.[0-9]+)?)(d|h|ms|m|s|microsecond|tick)")
UNITS = {"d": 86400 * TICKS, "h": 3600 * TICKS, "m": 60 * TICKS, "s": TICKS, "ms": 10_000, "microsecond": 10, "tick": 1}


def is_timespan(text):
    """Whether the engine reads a text without blanks at its ends as a timespan."""
    found = EXACT_CLOCK.fullmatch(text)
    if found:
        sign, days, hours, minutes, seconds, fraction = found.groups()
        if int(hours) > 23 or int(minutes) > 59 or int(seconds) > 59:
            return False
        whole = ((int(days or 0) * 24 + int(hours)) * 60 + int(minutes)) * 60 + int(seconds)
        ticks = whole * TICKS + int((fraction or "").ljust(7, "0"))
    else:
        found = EXACT_UNIT.fullmatch(text)
        if found:
            sign, ticks = found[1], Fraction(found[2]) * UNITS[found[3]]
        elif re.fullmatch("[0-9]+", text):
            sign, ticks = None, int(text) * UNITS["d"]
        else:
            return False
    return ticks == int(ticks) and ticks <= 2**63 - (0 if sign else 1)


def offset(text):
    """An offset as the engine reads it, or none."""
    if text in ("", "Z"):
        return text
    if text in ("z", "UTC", "GMT"):
        return "Z"
    digits = text[1:].replace(":", "").ljust(4, "0")
    found = f"{text[0]}{digits[:2]}:{digits[2:]}"
    return found if STRICT_ZONE.fullmatch(found) else None


class Days(dict):
    """The days of an access log, as `10/Oct/2000`, and what a datetime begins with on them."""

    def __missing__(self, text):
        self[text] = date = datetime.date(int(text[7:]), MONTHS[text[3:6]], int(text[:2])).isoformat() + "T"
        return date


class YearlessDays(dict):
    """The days of a syslog, as `Oct 11`, and what a datetime begins with on them."""

    def __init__(self, year):
        super().__init__()
        self.year = year

    def __missing__(self, text):
        month, day = MONTHS[text[:3]], int(text[4:])
        self[text] = date = datetime.date(self.year(month, day), month, day).isoformat() + "T"
        return date


class Moments:
    """Reads datetimes. Those without a zone are in `zone`; those without a year are the last such ones before `latest`."""

    def __init__(self, zone="", latest=None):
        self.zone = zone
        self.latest = latest or datetime.datetime.now()
        self.days = Days()
        self.heads = set()

    def are_plain(self, cells, shapes):
        """Whether cells of these shapes are datetimes that are written as they stand. It may be false where they are."""
        if self.zone:
            return False
        heads = {cell[:17] for cell in cells}
        if not heads <= self.heads:
            fresh = heads - self.heads
            if not all(map(HEAD.fullmatch, fresh)):
                return False
            self.heads = heads if len(self.heads) > MOST_HEADS else self.heads | fresh
        if not {cell[17:18] for cell in cells} <= SIXTIES:
            return False
        offsets = {cell[10:][-6:] for cell in cells} if any(shape[-6:-5] in ("+", "-") and len(shape) > 10 for shape in shapes) else ()
        return all(OFFSET.fullmatch(found) for found in offsets if found[:1] in ("+", "-"))

    def exact(self, text):
        """The text, rewritten where the engine reads no such form; or none. It has no blanks at its ends."""
        found = LOOSE.fullmatch(text)
        if found:
            year, _, month, day, clock, zone = found.groups()
            return self.written(year, month, day, clock, zone)
        found = APACHE.fullmatch(text)
        if found:
            day, month, year, clock, hours, minutes = found.groups()
            return self.written(year, MONTHS[month], day, clock, hours + minutes)
        found = HTTP.fullmatch(text)
        if found:
            return self.written(found[3], MONTHS[found[2]], found[1], found[4], "Z")
        found = SYSLOG.fullmatch(text)
        if found:
            month, day, year, clock = found.groups()
            return self.written(year or self.year(MONTHS[month], day), MONTHS[month], day, clock, None)
        return None

    def written(self, year, month, day, clock, zone):
        try:
            date = datetime.date(int(year), int(month), int(day))
        except ValueError:
            return None
        if clock is None:
            return date.isoformat() + (f"T00:00{self.zone}" if self.zone else "")
        clock = clock.replace(",", ".")
        clock = clock[: clock.find(".") + 10] if "." in clock else clock
        zone = offset(zone or self.zone)
        if zone is None or not STRICT_TIME.fullmatch(clock) or not in_range(date, clock, zone):
            return None
        return f"{date.isoformat()}T{clock}{zone}"

    def year(self, month, day):
        """The last year in which the day isn't more than a day behind the latest one."""
        latest = (self.latest + datetime.timedelta(days=1)).date()
        for year in range(latest.year, latest.year - 9, -1):
            try:
                if datetime.date(year, month, int(day)) <= latest:
                    return year
            except ValueError:
                pass
        return latest.year

    def epoch(self, text):
        """The datetime of a number that counts since 1970, or none."""
        found = EPOCH.fullmatch(text)
        if not found:
            return None
        digits = {9: 0, 10: 0, 12: 3, 13: 3, 15: 6, 16: 6, 18: 9, 19: 9}[len(found[1])]
        seconds, fraction = found[1][: len(found[1]) - digits], found[1][len(found[1]) - digits :] + (found[2] or "")
        moment = EPOCH_START + datetime.timedelta(seconds=int(seconds))
        return moment.isoformat() + ("." + fraction[:9] if fraction else "") + "Z"

    def of_logs(self, values):
        """The datetimes of a whole column of an access log or a syslog, or none where one of them needs a closer look."""
        text = "\n".join(values)
        if text.count("\n") != len(values) - 1:
            return None
        days, zone = self.days, self.zone
        try:
            if len(APACHE_LINES.findall(text)) == len(values):
                return [f"{days[v[:11]]}{v[12:20]}{v[21:24]}:{v[24:]}" for v in values]
            if len(SYSLOG_LINES.findall(text)) == len(values):
                days = YearlessDays(self.year)
                return [f"{days[v[:6]]}{v[7:]}{zone}" for v in values]
        except ValueError:
            pass
        return None


def in_range(date, clock, zone):
    """Whether the moment, its offset taken off, lies between the years 1 and 9999."""
    if 1 < date.year < 9999 or len(zone) < 2:
        return True
    minutes = int(zone[1:3]) * 60 + int(zone[4:6])
    moment = datetime.datetime.combine(date, datetime.time(int(clock[:2]), int(clock[3:5])))
    try:
        moment - datetime.timedelta(minutes=minutes if zone[0] == "+" else -minutes)
    except OverflowError:
        return False
    return True

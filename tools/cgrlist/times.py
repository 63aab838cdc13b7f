"""Times: a time is a whole number of seconds since 1970 in UTC, without leap seconds, as the program has it."""

import functools
import numbers
import re
import time
from datetime import date, datetime, timedelta, timezone

EPOCH = datetime(1970, 1, 1, tzinfo=timezone.utc)
DAY = 86400
LAST = 253370764799  # 9998/12/31-23:59:59, the last time that a plan or a word can name
NOW = int(time.time())  # one moment for all words of a run
TIMES = "a time is 2031/03/03-01:00:00, 2031-03-03T01:00:00Z, 2031-03-03 01:00, 2031-062, now or now+2h"

_TIME = re.compile(r"(\d{4}/\d\d/\d\d)-(\d\d):(\d\d):(\d\d)", re.ASCII)
_DATE = r"(\d{4})([-/])(?:(\d\d)\2(\d\d)|(\d{3}))"  # with the day of the month or of the year
_CLOCK = r"(\d\d):(\d\d)(?::(\d\d))?(?:Z|([+-])(\d\d):?(\d\d))?"
_ISO = re.compile(rf"{_DATE}(?:(?:T|-| ){_CLOCK})?", re.ASCII)
_FRACTION = re.compile(r"[-/\d]+[T -]\d\d:\d\d:\d\d[.,]\d.*", re.ASCII)
_NOW = re.compile(r"now(?:([+-]\d{1,12})([smhd]))?", re.ASCII)
_SECONDS = re.compile(r"[1-9]\d{8,11}", re.ASCII)  # since 1970, from 1973 on
_UNITS = {"s": 1, "m": 60, "h": 3600, "d": DAY, None: 1}
_ORIGIN = date(1970, 1, 1).toordinal()

# Routes share most of their times, so what was read or spelled before is kept, up to so many of it.
KEPT = 16384
kept = functools.lru_cache(maxsize=KEPT)


# ---- Reading ----------------------------------------------------------------------------------------------------


@kept
def _day(text):
    """The second at which a day begins."""
    return (date(*map(int, text.split("/"))).toordinal() - _ORIGIN) * DAY


@kept
def seconds_of(text):
    """Reads `yyyy/mm/dd-hh:mm:ss`, as the program writes times; ValueError if it is spelled otherwise."""
    found = _TIME.fullmatch(text)
    if not found:
        raise ValueError(f"not a time: {text}")
    hours, minutes, seconds = int(found[2]), int(found[3]), int(found[4])
    if hours > 23 or minutes > 59 or seconds > 59:
        raise ValueError(f"not a time: {text}")
    return _day(found[1]) + hours * 3600 + minutes * 60 + seconds


def time_of(text):
    """The second that a time of the command line says; ValueError if it says none that a plan can have."""
    second = _second_of(text)
    if _FRACTION.fullmatch(text):
        raise ValueError(f"a time is whole seconds: {text}")
    if not 0 <= second <= LAST:
        raise ValueError(f"no time of the years 1970 to 9998: {text}")
    return second


def _second_of(text):
    if found := _NOW.fullmatch(text):
        return NOW + int(found[1] or 0) * _UNITS[found[2]]
    if _SECONDS.fullmatch(text):
        return int(text)
    found = _ISO.fullmatch(text)
    if not found:
        return -1
    year, _, month, day, day_of_year, hours, minutes, seconds, sign, *offset = found.groups()
    try:
        begin = _day(f"{year}/{month}/{day}") if month else _day(f"{year}/01/01") + (int(day_of_year) - 1) * DAY
        clock = seconds_of(f"1970/01/01-{hours or '00'}:{minutes or '00'}:{seconds or '00'}")
    except ValueError:
        return -1
    if day_of_year and date_of(begin).year != int(year):
        return -1
    east = (int(offset[0]) * 3600 + int(offset[1]) * 60) * (1 if sign == "+" else -1) if sign else 0
    return begin + clock - east


def second_of(time):
    """The second of a number of seconds, a `datetime` with a time zone, a `date`, whose first second it is, or a text as the
    command line takes it. ValueError if that is none of the years 1970 to 9998, or not a whole second.
    """
    if isinstance(time, str):
        return time_of(time)
    if isinstance(time, datetime):
        if time.utcoffset() is None:
            raise ValueError(f"a time without a zone: {time}; .replace(tzinfo=timezone.utc) gives it one")
        second, rest = divmod(time - EPOCH, timedelta(seconds=1))
    elif isinstance(time, date):
        second, rest = (time.toordinal() - _ORIGIN) * DAY, 0
    elif isinstance(time, numbers.Real):
        second, rest = divmod(time, 1)
    else:
        raise ValueError(f"no time: {time!r}")
    if rest:
        raise ValueError(f"a time is whole seconds: {time}")
    if not 0 <= second <= LAST:
        raise ValueError(f"no time of the years 1970 to 9998: {time}")
    return int(second)


# ---- Spelling ---------------------------------------------------------------------------------------------------


def date_of(second):
    """The `datetime` of a second, in UTC."""
    return EPOCH + timedelta(seconds=second)


@kept
def time_text(second):
    """Spells a second as `yyyy/mm/dd-hh:mm:ss`."""
    it = date_of(second)
    return f"{it.year:04}/{it.month:02}/{it.day:02}-{it.hour:02}:{it.minute:02}:{it.second:02}"


@kept
def iso_text(second):
    """Spells a second as `yyyy-mm-ddThh:mm:ssZ`."""
    return date_of(second).strftime("%Y-%m-%dT%H:%M:%SZ")


@kept
def sheet_text(second):
    """Spells a second as spreadsheets do, `yyyy-mm-dd hh:mm:ss`."""
    return f"{date_of(second):%Y-%m-%d %H:%M:%S}"

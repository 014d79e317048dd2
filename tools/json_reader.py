"""An established JSON reader, Python's json, held to RFC 8259 as this repository narrows it.

Where Python's reader is laxer than the RFC, or than the limits of this repository, this module refuses beside it:
NaN and Infinity, lone surrogates, and more than 32 open brackets. Python reads text, so the bytes are decoded before,
strictly (RFC 3629).
"""

import json

DEPTH = 32


class Refused(Exception):
    """The bytes are no JSON text."""


class Object:
    """An object with all its members, so that the first of equal names can be told."""

    def __init__(self, members):
        self.members = members

    def first(self, name):
        return next((value for key, value in self.members if key == name), None)

    def counted(self):
        """The members whose name none before them has."""
        return [(key, value) for at, (key, value) in enumerate(self.members) if key not in [name for name, _ in self.members[:at]]]


class Number:
    """A number; its value is of no concern, and may be too large for Python."""

    def __init__(self, digits):
        self.digits = digits


def refuse(word):
    raise Refused(f"{word} is no value")


def read_laxly(text):
    """The value as Python alone reads it."""
    try:
        return json.loads(
            text.decode("utf-8", "strict"),
            object_pairs_hook=Object,
            parse_int=Number,
            parse_float=Number,
            parse_constant=refuse,
        )
    except (ValueError, RecursionError) as error:
        raise Refused(str(error)) from error


def check(value, depth):
    """Refuses lone surrogates, and a value in which more than so many brackets are open."""
    if isinstance(value, str) and any("\ud800" <= char <= "\udfff" for char in value):
        raise Refused("a lone surrogate")
    if isinstance(value, (Object, list)):
        if depth == 0:
            raise Refused("too many open brackets")
        members = value.members if isinstance(value, Object) else value
        for item in members:
            for part in item if isinstance(item, tuple) else (item,):
                check(part, depth - 1)


def read(text):
    """The value of a JSON text: None, bool, Number, str, list or Object. Raises Refused for any other bytes."""
    value = read_laxly(text)
    check(value, DEPTH)
    return value


def accepts(text):
    try:
        read(text)
    except Refused:
        return False
    return True

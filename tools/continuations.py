"""Finds the fault of a text by trying continuations.

The place of a fault is the length of the longest beginning of the text that some JSON text continues. So each beginning, the
longest first, is continued in every way of a fixed list, and an established reader is asked whether it accepts one of them.
What is known here of JSON is where its strings end and which brackets belong together (closing_brackets), and what may be
missing of a token. The list has to offer enough, and the reader decides.
"""

import re

from json_reader import accepts

# What may be missing of a character in UTF-8: a second byte from either end of each range that RFC 3629 has, and one or two
# more.
UTF8 = [bytes([second]) + b"\x80" * more for second in (0x80, 0x8F, 0x90, 0x9F, 0xA0, 0xBF) for more in range(3)]

# What may be missing of an escape: its letter, some of its four digits, and the low surrogate that a high one wants.
LOW = b"\\udc00"
ESCAPE = [b"n", b"u0000"] + [b"0" * digits for digits in range(1, 5)]
ESCAPE += [b"0" * digits + LOW for digits in range(4)] + [LOW[start:] for start in range(1, 6)]

# What may be missing of a token: nothing, the rest of a string, of a literal name or of a number.
STRING = [rest + b'"' for rest in [b""] + UTF8 + ESCAPE]
NAME = [name[start:] for name in (b"true", b"false", b"null") for start in range(1, len(name))]
TOKEN = [b""] + STRING + NAME + [b"0"]

# What may be missing behind it before the brackets can close: nothing, a value, a colon and a value, or a member.
ITEM = [b"", b"0", b":0", b'"":0']

CLOSING = {"[": "]", "{": "}"}


def closing_brackets(text):
    """The brackets that would close those that a text opens outside of its strings."""
    bare = re.sub(rb'"(?:[^"\\]|\\.)*(?:"|\\?$)', b"", text, flags=re.DOTALL)
    wanted = []
    for char in bare.decode("latin-1"):
        if char in CLOSING:
            wanted.append(CLOSING[char])
        elif wanted and char == wanted[-1]:
            wanted.pop()
    return "".join(reversed(wanted)).encode()


def goes_on(text):
    """Whether some JSON text begins so, as far as the list can tell."""
    end = closing_brackets(text)
    return any(accepts(text + token + item + end) for token in TOKEN for item in ITEM)


def fault_place(text):
    return next(size for size in range(len(text), -1, -1) if goes_on(text[:size]))

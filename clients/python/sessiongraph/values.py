"""Names and values, as lines of `sessiongraph` have them: an integer of 64 bits, or a text of at most 1,024 bytes of UTF-8."""
import re
from typing import Mapping, Union

Value = Union[int, str]

LEAST, GREATEST, LONGEST = -(2**63), 2**63 - 1, 1_024
NAME = r"[A-Za-z][A-Za-z0-9_]{0,31}"
WORD = r'(?:0|-?[1-9]\d*|"(?:[!#-\[\]-~]|\\x[0-9A-Fa-f]{2})*")'


def named(word: str, what: str) -> str:
    """Returns the word, which must be a name; else raises ValueError."""
    if not re.fullmatch(NAME, word):
        raise ValueError(f"{word!r} is no name of a {what}: a name is a letter and then letters, digits and _, 32 characters at most")
    return word


def spelled(value: Value) -> str:
    """Returns a value as a line has it. Raises TypeError if it is neither an `int` nor a `str` (a `bool` is none here), and ValueError if it is
    out of its range."""
    if isinstance(value, bool) or not isinstance(value, (int, str)):
        raise TypeError(f"a value is an int or a str, and not {type(value).__name__}")
    if isinstance(value, int):
        if not LEAST <= value <= GREATEST:
            raise ValueError(f"{value} is no integer of 64 bits")
        return str(value)
    data = value.encode()
    if len(data) > LONGEST:
        raise ValueError(f"a text of {len(data):,} bytes is longer than {LONGEST:,}")
    return '"' + "".join(chr(it) if 0x21 <= it <= 0x7E and it not in b'"\\' else f"\\x{it:02x}" for it in data) + '"'


def read_value(word: str) -> Value:
    """Returns the value that is spelled so. Raises ValueError if none is."""
    if not re.fullmatch(WORD, word):
        raise ValueError(f"{word!r} is no value")
    if not word.startswith('"'):
        return int(word)
    return re.sub(rb"\\x(..)", lambda it: bytes.fromhex(it[1].decode()), word[1:-1].encode()).decode()


def assigned(values: Mapping[str, Value]) -> str:
    """Returns values as an act has them, a space before each."""
    return "".join(f" {named(name, 'variable')}={spelled(value)}" for name, value in values.items())


def read_assigned(text: str) -> "dict[str, Value]":
    """Returns the values of a line, which has a space before each."""
    return {name: read_value(word) for name, _, word in (it.partition("=") for it in text.split())}

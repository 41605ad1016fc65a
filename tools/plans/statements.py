"""Lines of a plan text: words, names and key=value pairs."""
import re

from .troubles import BadValue, meant

NAME = re.compile(r"[A-Za-z_][A-Za-z0-9_.-]*")
RESERVED = ("none", "any")


def statements(text):
    """Line numbers (from 1) with the words of each line that has any; '#' starts a comment."""
    for number, line in enumerate(text.split("\n"), 1):
        words = line.split("#", 1)[0].split()
        if words:
            yield number, words


def split_name(words):
    """The name that may stand first, and the words after it."""
    if not words or "=" in words[0]:
        return "", words
    name = words[0]
    if not NAME.fullmatch(name):
        raise BadValue(f"'{name}' is no name; names have letters, digits, _ . - and start with a letter or _")
    if name in RESERVED:
        raise BadValue(f"'{name}' is no name; it stands for a mask")
    return name, words[1:]


def pairs(owner, words, keys):
    """The values of key=value words by key; owner and keys are for messages and hints."""
    values = {}
    for word in words:
        key, _, value = word.partition("=")
        if not key or not value:
            raise BadValue(f"'{word}' is not key=value (without spaces around =)")
        if key not in keys:
            raise BadValue(f"{owner} has no key '{key}'{meant(key, keys)}; its keys are {', '.join(keys)}")
        if key in values:
            raise BadValue(f"{key} stands twice")
        values[key] = value
    return values

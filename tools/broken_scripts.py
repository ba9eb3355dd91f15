"""Draws scripts with something wrong with them: one byte of a script changed, taken out or doubled, or the text ends there; its
members changed; or characters that are no JSON, or are JSON that is seldom written."""

import json

from plain_endings import explain_script

ODD = [
    None, True, "a", "", -1, 0, 1, 7, 8, 9, 15, 16, 17, 255, 256, 2**32 - 1, 2**32, 2**48 - 1, 2**48, 2**64 - 1, 2**64, 1.0, 1e3,
    1e400, [], [0], [0, 0], [[0, 1]], {}, {"group": 0},
]  # fmt: skip
NAMES = [
    "partitions", "app", "woven_from", "epochs", "group", "txns", "client", "number", "op", "attempt", "reads", "writes", "extra",
]  # fmt: skip
EVENT_NAMES = ["replicas", "delay", "events", "expect", *NAMES]
# what stands in the place of a byte: digits, what else means something in a script, and anything
DIGITS = b"0123456789"
BYTES = [DIGITS, DIGITS + b'-+.eE"\\{}[],: \n\ttfnul', bytes(range(256))]


def text_of(value, **form):
    return json.dumps(value, **form).replace("Infinity", "1e400")


# ---- one byte


def laid_out(draw, script, more=None):
    """The script's text, in one of some layouts; where it is filled up, with so many spaces behind it that it has so many bytes
    more than a script may have."""
    form = draw.choice([{}, {"indent": 1}, {"separators": (",", ":")}])
    data = (text_of(script, **form) + draw.choice(["", "\n", " \n"])).encode()
    return data if more is None else data.ljust(explain_script.MOST_BYTES + more)


def drawn_place(draw, data):
    """A place in the text, one in four times that of a digit, and one in eight times behind all but spaces and line feeds."""
    end = len(data.rstrip())
    kind = draw.randrange(8)
    if kind == 0:
        return end
    places = [at for at in range(end) if data[at] in DIGITS] if kind < 3 else range(end)
    return draw.choice(places or [end])


def byte_changed(draw, data):
    at = min(drawn_place(draw, data), len(data) - 1)
    others = draw.choice(BYTES).replace(data[at : at + 1], b"")
    return data[:at] + bytes([draw.choice(others)]) + data[at + 1 :]


def ended(draw, data):
    return data[: drawn_place(draw, data)]


def byte_taken_out(draw, data):
    at = drawn_place(draw, data)
    return data[:at] + data[at + 1 :]


def byte_doubled(draw, data):
    at = drawn_place(draw, data)
    return data[:at] + data[at : at + 1] + data[at:]


# ---- members, and characters


def places(value, at=()):
    """Each place in a value, as the names and numbers that lead there."""
    yield at
    inside = value.items() if isinstance(value, dict) else enumerate(value) if isinstance(value, list) else ()
    for name, it in inside:
        yield from places(it, (*at, name))


def changed(draw, script, names):
    """The script with one place replaced, taken out, repeated or given a member more."""
    at = draw.choice(list(places(script)))
    if not at:
        return draw.choice(ODD)
    holder = script
    for name in at[:-1]:
        holder = holder[name]
    last, what = at[-1], draw.randrange(5)
    if what == 0:
        del holder[last]
    elif what == 1 and isinstance(holder, list):
        holder.extend([holder[last]] * draw.choice([1, 1, 16, 256]))
    elif what == 2 and isinstance(holder, dict):
        holder[draw.choice(names)] = draw.choice(ODD)
    else:
        holder[last] = draw.choice(ODD)
    return script


def broken_text(draw, text):
    """The text with some characters put in or replaced."""
    at = draw.randrange(len(text) + 1)
    what = draw.randrange(8)
    if what == 0:
        return text[:at].encode() + bytes([draw.choice([0, 9, 31, 128, 255])]) + text[at:].encode()
    if what == 1:
        return (text[:at] + draw.choice('"\\{}[],:-01.e \n') + text[at:]).encode()
    if what == 2:
        return draw.choice([b"\xef\xbb\xbf", b" \t\r\n", b"// a comment\n", b"NaN", b""]) + text.encode()
    if what == 3:
        return text.encode() + draw.choice([b" \n", b"{}", b",", b"\x00", text.encode()])
    if what == 4:
        deep = draw.choice([125, 126, 127, 128, 200])
        name = '"epochs": ' if '"epochs": ' in text else '"events": '
        return text.replace(name, name + "[" * deep + "]" * deep + ", " + name, 1).encode()
    if what == 5:
        names = ['"ap\\u0070"', '"ap\\ud800"', '"ap\\ud83d\\ude00"', '"ap\\x"', "'app'"]
        return text.replace('"app"', draw.choice(names), 1).encode()
    if what == 6:
        ones = ["01", "1.0", "1e0", "-0", "1e999", "1" * 400, "0x1", "+1", "18446744073709551616"]
        return text.replace("1", draw.choice(ones), 1).encode()
    return text.replace('"op"', '"op": 1, "op"', 1).encode()


def members_changed(draw, script):
    names = NAMES if "epochs" in script else EVENT_NAMES
    for _ in range(draw.choice([1, 1, 2])):
        script = changed(draw, script, names) if isinstance(script, dict) else script
    return text_of(script).encode()


BYTE_CHANGES = {
    "nothing changed": lambda _draw, data: data,
    "a byte changed": byte_changed,
    "the text ends": ended,
    "a byte taken out": byte_taken_out,
    "a byte doubled": byte_doubled,
}
OTHER_CHANGES = {
    "members changed": members_changed,
    "characters changed": lambda draw, script: broken_text(draw, text_of(script)),
}


def broken(draw, script, change, more=None):
    """The script with this change, which is that of a byte where the text is filled up first."""
    if change in OTHER_CHANGES:
        return OTHER_CHANGES[change](draw, script)
    return BYTE_CHANGES[change](draw, laid_out(draw, script, more))

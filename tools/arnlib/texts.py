"""Bytes as texts: in words that are given, in what is printed, and in lines of a session."""
import re

# The letters of C's escapes, and their bytes.
LETTERS = {"a": 7, "b": 8, "t": 9, "n": 10, "v": 11, "f": 12, "r": 13, "e": 27, "\\": 92, '"': 34, "'": 39, "?": 63}
SHOWN = {byte: letter for letter, byte in LETTERS.items() if letter in "tnr\\\""}
ESCAPE = re.compile(r"\\(x[0-9a-fA-F]{1,2}|[0-7]{1,3}|.|$)", re.DOTALL)

# Characters that change how a terminal shows what stands beside them: C0, C1 and bidirectional controls.
CONTROLS = re.compile("[\x00-\x1f\x7f-\x9f\u061c\u200e\u200f\u202a-\u202e\u2066-\u2069]")


def bytes_in(text):
    """The bytes of a text with C's escapes. A ValueError says which escape is none."""
    found, place = bytearray(), 0
    for match in ESCAPE.finditer(text):
        found += text[place:match.start()].encode(errors="surrogateescape")
        found.append(escaped_byte(match[1]))
        place = match.end()
    return bytes(found + text[place:].encode(errors="surrogateescape"))


def escaped_byte(word):
    """The byte of an escape, without its backslash."""
    if word[:1] == "x" and len(word) > 1:
        return int(word[1:], 16)
    if word[:1].isdigit() and word[:1] < "8":
        value = int(word, 8)
        if value < 256:
            return value
    elif word in LETTERS:
        return LETTERS[word]
    raise ValueError(f"\\{word} is no escape")


def shown_control(match):
    """A control character as an escape."""
    code = ord(match[0])
    if code in SHOWN:
        return "\\" + SHOWN[code]
    return f"\\x{code:02x}" if code < 256 else f"\\u{code:04x}"


def shown(data):
    """Bytes as a text for a person: UTF-8 where they are that, and every other byte and each control as an escape."""
    text = data.decode(errors="surrogateescape").replace("\\", "\\\\").replace('"', '\\"')
    text = "".join(f"\\x{ord(letter) - 0xdc00:02x}" if "\udc80" <= letter <= "\udcff" else letter for letter in text)
    return CONTROLS.sub(shown_control, text)


def quoted(data):
    """The same between quotes."""
    return f'"{shown(data)}"'


def safe(text):
    """A text from a log or from the words, as it may be printed: without controls."""
    return CONTROLS.sub(shown_control, text)


def hex_of(data):
    """The hex of bytes as a session's line has it, `-` for none."""
    return data.hex() or "-"


def bytes_of(word):
    """The bytes of such hex."""
    return b"" if word == "-" else bytes.fromhex(word)


def as_json(data):
    """Bytes for a JSON object: `hex`, and `text` where they are UTF-8."""
    made = {"hex": data.hex()}
    try:
        made["text"] = data.decode()
    except UnicodeDecodeError:
        pass
    return made


def plural(count, word):
    return f"{count:,} {word}" + ("" if count == 1 else "s")


def span(first, last):
    """Places from the first to the last, as people write them."""
    return f"{first}" if first == last else f"{first}-{last}"

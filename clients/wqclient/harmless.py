"""Text for terminals. Whoever names a file or a root could else move the cursor, or turn the order of letters round."""

import re

# C0 and C1 controls, the marks that override the direction of text, and bytes of a name that is not UTF-8.
HARMFUL = re.compile("[\x00-\x1f\x7f-\x9f\u202a-\u202e\u2066-\u2069\udc80-\udcff]")
# JSON as it is laid out has newlines, and within texts no other C0 control.
HARMFUL_IN_JSON = re.compile("[\x7f-\x9f\u202a-\u202e\u2066-\u2069]")


def harmless(text: str) -> str:
    """The text with escapes in place of what could do harm. It is one line."""
    return HARMFUL.sub(escape, text)


def escape(found: "re.Match[str]") -> str:
    code = ord(found[0])
    if code >= 0xDC80:
        code -= 0xDC00
    return f"\\x{code:02x}" if code < 0x100 else f"\\u{code:04x}"


def harmless_lines(text: str) -> str:
    """The same for lines, of which each ends in a newline."""
    return "\n".join(map(harmless, text.split("\n")))


def harmless_json(text: str) -> str:
    """JSON of the same value, with escapes in place of what could do harm."""
    return HARMFUL_IN_JSON.sub(lambda found: f"\\u{ord(found[0]):04x}", text)

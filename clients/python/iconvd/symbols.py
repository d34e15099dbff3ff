"""The symbolic names of the portable character set (XBD 6.1), which a charmap may use in place of `<Uxxxx>`."""

from __future__ import annotations

from typing import Dict

_NAMES = {
    0x00: "NUL",
    0x07: "alert backspace tab newline vertical-tab form-feed carriage-return",
    0x20: "space exclamation-mark quotation-mark number-sign dollar-sign percent-sign ampersand apostrophe",
    0x28: "left-parenthesis right-parenthesis asterisk plus-sign comma hyphen period slash",
    0x30: "zero one two three four five six seven eight nine colon semicolon less-than-sign equals-sign greater-than-sign",
    0x3F: "question-mark commercial-at A B C D E F G H I J K L M N O P Q R S T U V W X Y Z",
    0x5B: "left-square-bracket backslash right-square-bracket circumflex underscore grave-accent",
    0x61: "a b c d e f g h i j k l m n o p q r s t u v w x y z left-brace vertical-line right-brace tilde",
    # Second names.
    0x2D: "hyphen-minus full-stop solidus",
    0x5C: "reverse-solidus",
    0x5E: "circumflex-accent low-line",
    0x7B: "left-curly-bracket",
    0x7D: "right-curly-bracket",
}

#: The character of each name.
SYMBOLS: Dict[str, int] = {
    name: first + number for first, names in _NAMES.items() for number, name in enumerate(names.split())
}

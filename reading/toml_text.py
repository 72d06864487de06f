"""A reader of TOML 1.1 that keeps where each key and each value stands, and says what is wrong with a text, and where.

It takes what TOML 1.1 takes, with integers of 64 bits and at most 80 parts of a key and 80 arrays and inline tables in one
another, which are the limits of the program's reader. Texts, integers, floats, booleans, arrays and tables are Python's own,
an array as `Items` and a table as `Table`; a date or a time is a `Moment`.
"""
import re
from dataclasses import dataclass

# The most parts of a key, and the most arrays and inline tables in one another.
DEEPEST = 80

# The kinds of errors, with what may be written instead.
NOT_UTF8, KEY, EQUALS, HEADER, HEADERS, LINE_END, ARRAY, INLINE, STRING, ESCAPE, VALUE, UNDERSCORE, TOO_LARGE, MOMENT, TWICE, \
    EXTENDS, TOO_DEEP = KINDS = (
        "not UTF-8", "no key", "no `=`", "`]` is missing", "`]]` is missing", "more in the line", "a fault in an array",
        "a fault in an inline table", "a fault in a text", "a fault in an escape", "no value", "a misplaced `_`",
        "a number too large", "no date and no time", "a key for the second time", "a value extended like a table", "too deep")

BARE = re.compile("[A-Za-z0-9_-]+")
WORD = re.compile(r"[A-Za-z0-9_+.:-]+(?: (?=[0-9])[A-Za-z0-9_+.:-]+)?")
BLANK = re.compile(r"(?:[ \t]|\r?\n|#[^\x00-\x08\x0a-\x1f\x7f]*)*")
LINES = re.compile(r"(?:[ \t]|\r?\n)*")
SPACE = re.compile(r"[ \t]*")
PLAIN = {
    ('"', False): re.compile(r'[^"\\\x00-\x08\x0a-\x1f\x7f]*'), ('"', True): re.compile(r'(?:[^"\\\x00-\x08\x0b-\x1f\x7f]|\r\n)*'),
    ("'", False): re.compile(r"[^'\x00-\x08\x0a-\x1f\x7f]*"), ("'", True): re.compile(r"(?:[^'\x00-\x08\x0b-\x1f\x7f]|\r\n)*"),
}
ESCAPES = {"b": "\b", "e": "\x1b", "f": "\f", "n": "\n", "r": "\r", "t": "\t", '"': '"', "\\": "\\"}
HEX_DIGITS = {"x": 2, "u": 4, "U": 8}

DECIMAL = re.compile(r"[+-]?(?:0|[1-9][0-9]*)(\.[0-9]+)?([eE][+-]?[0-9]+)?", re.ASCII)
RADIXES = {"0x": (16, re.compile("[0-9a-fA-F]+")), "0o": (8, re.compile("[0-7]+")), "0b": (2, re.compile("[01]+"))}

DATE = r"(?P<year>[0-9]{4})-(?P<month>[0-9]{2})-(?P<day>[0-9]{2})"
TIME = r"(?P<hour>[0-9]{2}):(?P<minute>[0-9]{2})(?::(?P<second>[0-9]{2})(?:\.[0-9]+)?)?"
OFFSET = r"(?:[Zz]|[+-](?P<hours>[0-9]{2}):(?P<minutes>[0-9]{2}))"
MOMENTS = tuple(re.compile(form, re.ASCII) for form in (TIME, DATE, f"{DATE}[Tt ]{TIME}(?:{OFFSET})?"))


class TomlFault(Exception):
    """A text that isn't TOML: the kind of the error, its line and column from 1, and what is wrong there. Columns count
    characters. `first` is the line at which a key stood before, where that is the fault."""

    def __init__(self, kind, place, what, first=None):
        super().__init__(f"line {place[0]}, column {place[1]}: {what}")
        self.kind, self.place, self.what, self.first = kind, place, what, first


@dataclass(frozen=True)
class Moment:
    """A date, a time, or both, as it is written."""

    text: str

    def __str__(self):
        return self.text


class Items(list):
    """An array. `place` is where it begins, and `places` where each of its items does."""

    def __init__(self, place):
        super().__init__()
        self.place, self.places = place, []


class Table(dict):
    """A table. `place` is where its header or its brace stands, or its first key where it has none. `keys_at` and
    `values_at` say where the keys and their values stand. Of how it came to be, `origin` says a header that passed through
    it, a dotted key, its own header, or an inline table, which is complete."""

    def __init__(self, place, origin):
        super().__init__()
        self.place, self.origin = place, origin
        self.keys_at, self.values_at = {}, {}

    def put(self, key, value, key_at, value_at):
        self[key] = value
        self.keys_at[key], self.values_at[key] = key_at, value_at


PASSED, DOTTED, HEADED, INLINED = "passed", "dotted", "headed", "inline"


class TableItems(Items):
    """An array of tables, each by a header of its own."""


def read_toml(octets):
    """The table that a text in UTF-8 is, a byte order mark in front left out. Raises TomlFault."""
    try:
        text = octets.decode("utf-8")
    except UnicodeDecodeError as error:
        before = octets[: error.start].decode("utf-8")
        raise TomlFault(NOT_UTF8, place_in(before, len(before)), "octets that aren't UTF-8 stand here") from None
    return Reader(text.removeprefix("\ufeff")).document()


def place_in(text, at):
    """The line and the column, from 1, of a place in a text."""
    return text.count("\n", 0, at) + 1, at - (text.rfind("\n", 0, at) + 1) + 1


class Reader:
    """Reads a text from its front; `at` is how far it has come."""

    def __init__(self, text):
        self.text, self.at, self.counted = text, 0, (0, 1, 0)

    # Places, and what stands here.

    def place(self, at=None):
        """The line and the column of a place, which is counted on from the one before where it is behind it."""
        at = self.at if at is None else at
        before, line, start = self.counted
        if at < before:
            return place_in(self.text, at)
        line += self.text.count("\n", before, at)
        start = max(start, self.text.rfind("\n", before, at) + 1)
        self.counted = at, line, start
        return line, at - start + 1

    def fail(self, kind, what, at=None, first=None):
        raise TomlFault(kind, self.place(at), what, first)

    def starts(self, word):
        return self.text.startswith(word, self.at)

    def here(self):
        """What stands here, for a message."""
        char = self.text[self.at : self.at + 1]
        return "the text ends" if not char else "the line ends" if char in "\r\n" else f"here stands {ascii(char)[1:-1]!r}" \
            if not char.isprintable() else f"here stands `{char}`"

    def skip(self, form):
        self.at = form.match(self.text, self.at).end()

    def take(self, word, kind, what):
        if not self.starts(word):
            self.fail(kind, f"{what}, and {self.here()}")
        self.at += len(word)

    # The document.

    def document(self):
        root = Table((1, 1), HEADED)
        table = root
        while True:
            self.skip(BLANK)
            if self.at == len(self.text):
                return root
            begin = self.at
            if self.starts("["):
                table = self.header(root)
            else:
                key, value, value_at = self.pair(DEEPEST)
                self.define(table, key, value, value_at)
            self.end_line(begin)

    def end_line(self, begin):
        self.skip(SPACE)
        if self.at < len(self.text) and self.text[self.at] not in "#\r\n":
            line = self.text[begin : self.at].strip()
            self.fail(LINE_END, f"nothing may stand behind `{line if len(line) <= 40 else line[:37] + '..'}` in its line but a "
                      f"comment, and {self.here()}")

    def header(self, root):
        """A header: the table into which the lines behind it go."""
        place, is_array = self.place(), self.starts("[[")
        self.at += 2 if is_array else 1
        self.skip(SPACE)
        key = self.key()
        self.take("]", HEADER, "a header ends by `]`")
        if is_array:
            self.take("]", HEADERS, "a header of an array of tables ends by `]]`")
        table = root
        for name, at in key[:-1]:
            table = self.through_header(table, name, at, place)
        return self.head(table, *key[-1], place, is_array)

    def through_header(self, table, name, at, place):
        found = table.get(name)
        if found is None:
            found = Table(place, PASSED)
            table.put(name, found, self.place(at), place)
        if isinstance(found, TableItems):
            return found[-1]
        if isinstance(found, Table) and found.origin != INLINED:
            return found
        return self.fail(EXTENDS, f"`{name}` has a value in line {table.keys_at[name][0]}, and no header can go on with it",
                         at, table.keys_at[name][0])

    def head(self, table, name, at, place, is_array):
        found = table.get(name)
        if is_array and isinstance(found, TableItems) or found is None and is_array:
            if found is None:
                found = TableItems(place)
                table.put(name, found, self.place(at), place)
            found.append(Table(place, HEADED))
            found.places.append(place)
            return found[-1]
        if found is None:
            found = Table(place, HEADED)
            table.put(name, found, self.place(at), place)
            return found
        if not is_array and isinstance(found, Table) and found.origin == PASSED:
            found.origin, found.place = HEADED, place
            return found
        return self.twice(table, name, at)

    def twice(self, table, name, at):
        line = table.keys_at[name][0]
        return self.fail(TWICE, f"`{name}` stands here for the second time: the first is in line {line}", at, line)

    def define(self, table, key, value, value_at):
        """Puts a value at a key, whose dots pass through tables that dots made."""
        for name, at in key[:-1]:
            found = table.get(name)
            if found is None:
                found = Table(self.place(at), DOTTED)
                table.put(name, found, self.place(at), self.place(at))
            elif not isinstance(found, (Table, Items)) or getattr(found, "origin", None) == INLINED or \
                    isinstance(found, Items) and not isinstance(found, TableItems):
                self.fail(EXTENDS, f"`{name}` has a value in line {table.keys_at[name][0]}, and no key can go on with it", at,
                          table.keys_at[name][0])
            elif isinstance(found, TableItems) or found.origin == HEADED:
                self.twice(table, name, at)
            else:
                found.origin = DOTTED
            table = found
        name, at = key[-1]
        if name in table:
            self.twice(table, name, at)
        table.put(name, value, self.place(at), value_at)

    # Keys.

    def pair(self, depth):
        """A key, its value, and where that stands."""
        key = self.key()
        name = ".".join(name for name, _ in key)
        self.take("=", EQUALS, f"`=` and a value are expected behind `{name}`")
        self.skip(SPACE)
        value_at = self.place()
        return key, self.value(depth, name), value_at

    def key(self):
        """The parts of a key, each with its place in the text."""
        parts = []
        while True:
            if len(parts) == DEEPEST:
                self.fail(TOO_DEEP, f"a key has more than {DEEPEST} parts")
            parts.append((self.part(), self.part_at))
            self.skip(SPACE)
            if not self.starts("."):
                return parts
            self.at += 1
            self.skip(SPACE)

    def part(self):
        self.part_at = self.at
        if self.starts('"') or self.starts("'"):
            return self.string(False)
        match = BARE.match(self.text, self.at)
        if not match:
            self.fail(KEY, f"a key is expected (letters of ASCII, digits, `-` and `_`, or a text), and {self.here()}")
        self.at = match.end()
        return match[0]

    # Values.

    def value(self, depth, name):
        if depth and self.starts("["):
            return self.array(depth - 1, name)
        if depth and self.starts("{"):
            return self.inline(depth - 1)
        if self.starts('"') or self.starts("'"):
            delimiter = self.text[self.at]
            return self.string(self.starts(3 * delimiter))
        if not depth and self.text[self.at : self.at + 1] in ("[", "{"):
            self.fail(TOO_DEEP, f"more than {DEEPEST} arrays and inline tables stand in one another")
        return self.word(name)

    def array(self, depth, name):
        items = Items(self.place())
        self.at += 1
        while True:
            self.skip(BLANK)
            if self.starts("]"):
                self.at += 1
                return items
            items.places.append(self.place())
            items.append(self.value(depth, name))
            self.next_element("]", ARRAY, "an array")

    def inline(self, depth):
        table = Table(self.place(), INLINED)
        self.at += 1
        while True:
            self.skip(BLANK)
            if self.starts("}"):
                self.at += 1
                close(table)
                return table
            key, value, value_at = self.pair(depth)
            self.define(table, key, value, value_at)
            self.next_element("}", INLINE, "an inline table")

    def next_element(self, closing, kind, what):
        self.skip(BLANK)
        if self.starts(","):
            self.at += 1
        elif not self.starts(closing):
            self.fail(kind, f"`,` or `{closing}` is expected in {what}, and {self.here()}")

    # Texts.

    def string(self, is_multi):
        begin, delimiter, parts = self.at, self.text[self.at], []
        self.at += 3 if is_multi else 1
        if is_multi and (self.starts("\n") or self.starts("\r\n")):
            self.at += 1 if self.starts("\n") else 2
        while True:
            start = self.at
            self.skip(PLAIN[delimiter, is_multi])
            parts.append(self.text[start : self.at])
            if self.starts(delimiter):
                if self.ends(delimiter, is_multi, parts):
                    return "".join(parts)
            elif self.starts("\\"):
                parts.append(self.escape(is_multi))
            elif self.at == len(self.text) or not is_multi and (self.starts("\n") or self.starts("\r\n")):
                self.fail(STRING, f"the text that begins here has no {delimiter * (3 if is_multi else 1)} at its end", begin)
            else:
                self.fail(STRING, f"no character of a text: {self.here()}")

    def ends(self, delimiter, is_multi, parts):
        """Whether the text ends at the delimiters here. Of five in a text of several lines, two are text."""
        count = 1
        while is_multi and self.text.startswith(delimiter, self.at + count):
            count += 1
        if count > 5:
            self.fail(STRING, f"more than five {delimiter} stand in a row")
        if is_multi and count < 3:
            parts.append(delimiter * count)
            self.at += count
            return False
        parts.append(delimiter * (count - 3) if is_multi else "")
        self.at += count
        return True

    def escape(self, is_multi):
        begin = self.at
        self.at += 1
        line_end = SPACE.match(self.text, self.at).end()
        if is_multi and (self.text.startswith("\n", line_end) or self.text.startswith("\r\n", line_end)):
            self.skip(LINES)
            return ""
        letter = self.text[self.at : self.at + 1]
        self.at += 1
        if letter in ESCAPES:
            return ESCAPES[letter]
        digits = self.text[self.at : self.at + HEX_DIGITS.get(letter, 0)]
        if letter in HEX_DIGITS and re.fullmatch(f"[0-9a-fA-F]{{{HEX_DIGITS[letter]}}}", digits, re.ASCII):
            code = int(digits, 16)
            if code < 0xD800 or 0xE000 <= code < 0x110000:
                self.at += len(digits)
                return chr(code)
        return self.fail(ESCAPE, f"no escape: `\\{(letter + digits) if (letter + digits).isprintable() else ''}`", begin)

    # Numbers, booleans, and moments.

    def word(self, name):
        begin, match = self.at, WORD.match(self.text, self.at)
        if not match:
            self.fail(VALUE, f"a value is expected behind `{name} =`, and {self.here()}")
        word = match[0]
        if word in ("true", "false"):
            self.at = match.end()
            return word == "true"
        if re.match("[0-9]+[-:]", word, re.ASCII):
            if not is_moment(word):
                self.fail(MOMENT, f"`{word}` is no date and no time", begin)
            self.at = match.end()
            return Moment(word)
        number = self.number(word, begin)
        self.at = match.end()
        return number

    def number(self, word, begin):
        if not re.match("[+-]?(?:[0-9]|inf|nan)", word):
            self.fail(VALUE, f"`{word}` is no value", begin)
        radix, form = RADIXES.get(word[:2], (10, None))
        digit = "[0-9a-fA-F]" if radix == 16 else "[0-9]"
        if not re.fullmatch(f"(?:[^_]|(?<={digit})_(?={digit}))*", word, re.ASCII):
            self.fail(UNDERSCORE, f"in `{word}` a `_` doesn't stand between two digits", begin)
        plain = word.replace("_", "")
        if form:
            if not form.fullmatch(plain[2:]):
                self.fail(VALUE, f"`{word}` is no value", begin)
            return self.whole(int(plain[2:], radix), word, begin)
        if plain.lstrip("+-") in ("inf", "nan") and len(plain) <= 4:
            return float(plain)
        match = DECIMAL.fullmatch(plain)
        if not match:
            self.fail(VALUE, f"`{word}` is no value", begin)
        if not match[1] and not match[2]:
            return self.whole(int(plain), word, begin)
        value = float(plain)
        if value in (float("inf"), float("-inf")):
            self.fail(TOO_LARGE, f"`{word}` is too large", begin)
        return value

    def whole(self, value, word, begin):
        if not -(1 << 63) <= value < 1 << 63:
            self.fail(TOO_LARGE, f"`{word}` is too large", begin)
        return value


def close(table):
    """An inline table is complete, with the tables that its dotted keys made."""
    table.origin = INLINED
    for value in table.values():
        if isinstance(value, Table):
            close(value)


def is_moment(word):
    match = next((match for form in MOMENTS if (match := form.fullmatch(word))), None)
    if not match:
        return False
    part = {name: int(text) for name, text in match.groupdict().items() if text}
    is_time = part.get("hour", 0) < 24 and part.get("minute", 0) < 60 and part.get("second", 0) < 61
    return is_time and is_date(part) and part.get("hours", 0) < 24 and part.get("minutes", 0) < 60


def is_date(part):
    if "year" not in part:
        return True
    year, month = part["year"], part["month"]
    is_leap = year % 4 == 0 and (year % 100 != 0 or year % 400 == 0)
    days = 29 if month == 2 and is_leap else 28 if month == 2 else 30 if month in (4, 6, 9, 11) else 31
    return 1 <= month <= 12 and 1 <= part["day"] <= days

"""Texts of TOML that are made at random, right ones and wrong ones: each form of a value, of a key and of a header, and what is
nearly one."""

KEYS = ("a", "b", "port", "prefix", "mac", '"a"', "'b'", "a.b", "a . b", "a.b.c", '"x y"', '""', "1", "-", "\u00e9", "port.a")
BASIC = ("x", "\\n", "\\u00e9", "\\x41", "\\e", "\\q", "\\U0010ffff", "\\ud800", "\u00e9", "\t", "\\\\", "'", "#")
LITERAL = ("x", "\\", '"', "\u00e9", "\t")
LONG_BASIC = ("x", "\n", "\r\n", '"', '""', "\\\n  ", "\\ \n", "\\", "\r")
LONG_LITERAL = ("x", "\n", "'", "'''", "\\", "\r\n")
WHOLES = (
    "0", "1", "-1", "+1", "00", "01", "1_0", "1__0", "_1", "1_", "0x1F", "0xg", "0o17", "0o8", "0b10", "0b2", "0x_1", "0x1_f",
    "-0x1", "9223372036854775807", "9223372036854775808", "-9223372036854775808", "-9223372036854775809", "+0", "-0",
    "0x7fffffffffffffff", "0x8000000000000000",
)
FLOATS = (
    "1.0", "1.", ".1", "1e5", "1e", "1.5e+3", "1_0.0_1", "1._0", "inf", "-inf", "+nan", "nan", "infinity", "1e400", "-1e400",
    "1e-400", "0.0", "00.1", "1.0.0", "1E5", "3.e2",
)
MOMENTS = (
    "2026-11-29", "2026-02-29", "2024-02-29", "2026-13-01", "2026-11-29T12:00:00Z", "2026-11-29 12:00:00", "2026-11-29 12:00",
    "2026-11-29t12:00:60z", "12:00", "12:00:61", "24:00", "12:00:00.5", "12:00.5", "2026-11-29T12:00:00+05:30",
    "2026-11-29T12:00:00+24:00", "12:00Z", "0000-01-01", "2026-11-29 ", "2026-1-1", "12:00:00.", "2026-11-29T12",
    "02:00:00:00:00:01",
)
OTHERS = ("true", "false", "True", "yes", "on", "null", "", "1", '"x"', "[]", "{}")
HEADS = ("]", "] # c", "]]", "", " ]", "] x")
COMMENTS = ("# c", "", "   ", "\t# \u00e9", "#\x00", "# \x7f", "\r", "#\r")

# How deep arrays and inline tables stand in one another.
DEEPEST = 4


def some(source, pieces, most):
    return "".join(source.choice(pieces) for _ in range(source.randrange(most)))


def value(source, depth=0):
    kind = source.randrange(12)
    if kind == 0:
        return f'"{some(source, BASIC, 4)}"'
    if kind == 1:
        return f"'{some(source, LITERAL, 4)}'"
    if kind == 2:
        return f'"""{some(source, LONG_BASIC, 5)}' + source.choice(('"""', '""""', '"""""', '""""""'))
    if kind == 3:
        return f"'''{some(source, LONG_LITERAL, 5)}" + source.choice(("'''", "''''", "'''''"))
    if kind in (4, 5, 6) and depth < DEEPEST:
        return array(source, depth) if kind == 4 else inline(source, depth)
    return source.choice((WHOLES, FLOATS, MOMENTS, OTHERS)[kind % 4])


def array(source, depth):
    items = (source.choice((" ", "\n", "# c\n", "")) + value(source, depth + 1) + source.choice((",", " ,", ", ", "", " "))
             for _ in range(source.randrange(4)))
    return f"[{''.join(items)}" + source.choice(("]", " ]", "\n]", "", ",]"))


def inline(source, depth):
    pairs = (source.choice((" ", "\n", "", "# c\n")) + source.choice(KEYS) + source.choice(("=", " = ", "\n=", "= \n"))
             + value(source, depth + 1) + source.choice((",", ", ", "", " ")) for _ in range(source.randrange(4)))
    return f"{{{''.join(pairs)}" + source.choice(("}", " }", "\n}", "", ",}"))


def line(source):
    kind = source.randrange(10)
    if kind == 0:
        return "[" + source.choice(KEYS) + source.choice(HEADS)
    if kind == 1:
        return "[[" + source.choice(KEYS) + source.choice(("]]", "]] # c", "]", "] ]"))
    if kind == 2:
        return source.choice(COMMENTS)
    key = source.choice(("", " ")) + source.choice(KEYS) + source.choice(("=", " = ", "  =\t", ""))
    return key + value(source) + source.choice(("", "", "", " # c", " ;"))


def text(source):
    lines = [line(source) for _ in range(source.randrange(1, 4))]
    return source.choice(("\n", "\n", "\n", "\r\n")).join(lines) + source.choice(("", "\n"))

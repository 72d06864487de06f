"""Names of ports, which a plan says in comments: the one behind `number = N`, or behind the header `[[port]]`, or else the
comment that ends in the line above the header; up to its first full stop or comma."""
import re

# A name that is longer is cut.
LONGEST = 40

HEADER = re.compile(r"[ \t]*\[\[[ \t]*(?:port|\"port\"|'port')[ \t]*\]\][ \t]*(?:#(?P<behind>.*))?")
NUMBER = re.compile(r"[ \t]*number[ \t]*=[ \t]*[0-9]+[ \t]*#(?P<behind>.*)")


def port_names(text, document):
    """The name of each port that has one, by its number, of a plan without fault and its text."""
    lines = text.split("\n")
    found = {}
    for port, (line, _) in zip(document["port"], document["port"].places):
        header = HEADER.fullmatch(lines[line - 1].rstrip("\r"))
        number = NUMBER.fullmatch(lines[port.keys_at["number"][0] - 1].rstrip("\r"))
        comment = number and number["behind"] or header and (header["behind"] or comment_above(lines, line - 1))
        if comment and (name := short(comment)):
            found[port["number"]] = name
    return found


def comment_above(lines, at):
    """The lines of comment right above a line, joined."""
    begin = at
    while begin and lines[begin - 1].lstrip().startswith("#"):
        begin -= 1
    return " ".join(line.strip().lstrip("#").strip() for line in lines[begin:at])


def short(comment):
    name = re.split(r"[.,:;](?:\s|$)", "".join(char for char in comment.strip() if char.isprintable()))[0].strip()
    return name if len(name) <= LONGEST else f"{name[: LONGEST - 2].rstrip()}.."

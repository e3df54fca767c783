"""Structured fields, written from RFC 9651 and docs/STRUCTURED_FIELDS.md alone: dictionaries read, inner lists printed.

A bare item is a pair of its kind and its value: an Integer, a Decimal (in thousandths), a String, a Token, a Binary, a Boolean, a Date or a Display.
An item is a bare item and its parameters, an inner list ("list", items) and its parameters. Parameters and dictionaries keep their order.
"""

import base64
import binascii
import re
from urllib.parse import unquote_to_bytes

KEY = re.compile(r"[a-z*][a-z0-9_.*-]*")
NUMBER = re.compile(r"-?(\d{1,12}\.\d{1,3}|\d{1,15})(?![\d.])")
STRING = re.compile(r'"((?:[ !#-\[\]-~]|\\["\\])*)"')
TOKEN = re.compile(r"[A-Za-z*][A-Za-z0-9!#$%&'*+.^_`|~:/-]*")
BINARY = re.compile(r":([A-Za-z0-9+/]*)(=*):")
DISPLAY = re.compile(r'"((?:[ !#$&-~]|%[0-9a-f]{2})*)"')


class NotAField(Exception):
    """The text isn't of the grammar."""


class Reader:
    def __init__(self, text):
        self.text = text
        self.place = 0

    def peek(self):
        return self.text[self.place:self.place + 1]

    def skip(self, blanks):
        while self.peek() and self.peek() in blanks:
            self.place += 1

    def take(self, literal):
        if not self.text.startswith(literal, self.place):
            return False
        self.place += len(literal)
        return True

    def match(self, pattern):
        found = pattern.match(self.text, self.place)
        if not found:
            raise NotAField
        self.place = found.end()
        return found

    def bare(self):
        first = self.peek()
        if first == "-" or first.isdigit():
            return read_number(self.match(NUMBER).group())
        if first == '"':
            return "String", re.sub(r"\\(.)", r"\1", self.match(STRING).group(1))
        if first == ":":
            return "Binary", read_binary(*self.match(BINARY).groups())
        if self.take("?"):
            return "Boolean", self.match(re.compile("[01]")).group() == "1"
        if self.take("@"):
            kind, seconds = read_number(self.match(NUMBER).group())
            if kind != "Integer":
                raise NotAField
            return "Date", seconds
        if self.take("%"):
            return "Display", read_display(self.match(DISPLAY).group(1))
        return "Token", self.match(TOKEN).group()

    def parameters(self):
        found = {}
        while self.take(";"):
            self.skip(" ")
            name = self.match(KEY).group()
            value = self.bare() if self.take("=") else ("Boolean", True)
            found[name] = value
        return found

    def item(self):
        bare = self.bare()
        return bare, self.parameters()

    def member(self):
        if not self.take("("):
            return self.item()
        items = []
        while True:
            self.skip(" ")
            if self.take(")"):
                return ("list", items), self.parameters()
            items.append(self.item())
            if self.peek() not in (" ", ")"):
                raise NotAField

    def entries(self):
        found = {}
        while True:
            name = self.match(KEY).group()
            found[name] = self.member() if self.take("=") else (("Boolean", True), self.parameters())
            self.skip(" \t")
            if not self.peek():
                return found
            if not self.take(","):
                raise NotAField
            self.skip(" \t")


def read_number(text):
    if "." not in text:
        return "Integer", int(text)
    whole, _, part = text.lstrip("-").partition(".")
    thousandths = int(whole) * 1_000 + int(part.ljust(3, "0"))
    return "Decimal", -thousandths if text.startswith("-") else thousandths


def read_binary(digits, padding):
    """Base64 with the padding in full or absent altogether, and with zero unused last bits."""
    full = digits + "=" * (-len(digits) % 4)
    try:
        read = base64.b64decode(full, validate=True)
    except binascii.Error:
        raise NotAField from None
    if base64.b64encode(read).decode() != full or padding not in ("", full[len(digits):]):
        raise NotAField
    return read


def read_display(shown):
    """UTF-8, asked of all the bytes together."""
    try:
        return unquote_to_bytes(shown).decode()
    except UnicodeDecodeError:
        raise NotAField from None


def read_dictionary(text):
    """The dictionary of a text, given as bytes."""
    try:
        reader = Reader(text.decode("ascii"))
    except UnicodeDecodeError:
        raise NotAField from None
    reader.skip(" ")
    return reader.entries() if reader.peek() else {}


def print_bare(bare):
    kind, value = bare
    if kind == "String":
        return '"' + re.sub(r'(["\\])', r"\\\1", value) + '"'
    if kind == "Binary":
        return ":" + base64.b64encode(value).decode() + ":"
    if kind == "Boolean":
        return "?1" if value else "?0"
    if kind == "Date":
        return f"@{value}"
    if kind == "Display":
        return '%"' + "".join(chr(b) if 32 <= b <= 126 and b not in b'"%' else f"%{b:02x}" for b in value.encode()) + '"'
    if kind == "Decimal":
        digits = f"{abs(value) // 1_000}.{abs(value) % 1_000:03}".rstrip("0")
        return "-" * (value < 0) + digits + "0" * digits.endswith(".")
    return str(value)


def print_parameters(parameters):
    return "".join(";" + name + ("" if value == ("Boolean", True) else "=" + print_bare(value))
                   for name, value in parameters.items())


def print_inner_list(items, parameters):
    printed = (print_bare(bare) + print_parameters(of_item) for bare, of_item in items)
    return "(" + " ".join(printed) + ")" + print_parameters(parameters)


def print_member(member):
    """A member of a dictionary, as it stands behind its name and `=`."""
    value, parameters = member
    return print_inner_list(value[1], parameters) if value[0] == "list" else print_bare(value) + print_parameters(parameters)

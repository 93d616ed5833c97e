#!/usr/bin/env python3
"""Make a sheet file from a text of tokens, or show the records of a sheet.

The file format is described in docs/FORMAT.md.
"""

from __future__ import annotations

import argparse
import re
import struct
import sys
import unicodedata
from dataclasses import astuple, dataclass, field
from typing import NamedTuple, NoReturn, Optional

# --- The format -----------------------------------------------------------

HEAD = struct.Struct("<III")
RECORD = struct.Struct("<BBHIIIQQ")

MAX_RECORDS = 1024
MAX_POOL = 8192
MAX_DEPTH = 32

IDENT, PUNCT, LITERAL, GROUP = range(4)

STRING, BYTE_STRING, C_STRING, BYTE, CHAR, INTEGER, FLOAT, OTHER = range(8)
LITERAL_NAMES = (
    "string", "byte string", "C string", "byte", "char", "integer", "float", "other",
)

PAREN, BRACE, BRACKET, INVISIBLE = range(4)
GROUP_NAMES = ("parenthesis", "brace", "bracket", "invisible")
OPENING = {"(": PAREN, "{": BRACE, "[": BRACKET, "\u27e6": INVISIBLE}
CLOSING = {")": PAREN, "}": BRACE, "]": BRACKET, "\u27e7": INVISIBLE}

PUNCTS = "=<>!~+-*/%^&|@.,;:#$?'"

INFINITY_BITS = 0x7FF0_0000_0000_0000
MAX_U32 = 0xFFFF_FFFF
MAX_U64 = 0xFFFF_FFFF_FFFF_FFFF

# Offset and size in bytes, for --set.
HEAD_FIELDS = {"N": (0, 4), "L1": (4, 4), "L2": (8, 4)}
RECORD_FIELDS = {
    "kind": (0, 1), "sub": (1, 1), "mark": (2, 2), "a": (4, 4), "b": (8, 4),
    "place": (12, 4), "value": (16, 8), "bits": (24, 8),
}


@dataclass
class Record:
    """One record of a sheet. The order of the fields is their order in the file."""

    kind: int = 0
    sub: int = 0
    mark: int = 0
    a: int = 0
    b: int = 0
    place: int = 0
    value: int = 0
    bits: int = 0


class TextError(Exception):
    """The text cannot be turned into a sheet. `at` is a character index."""

    def __init__(self, message: str, at: int) -> None:
        super().__init__(message)
        self.message = message
        self.at = at


class UseError(Exception):
    """An option asks for something that the file does not allow."""


# --- Tokens ---------------------------------------------------------------


@dataclass(frozen=True)
class Quoting:
    """What may stand between the quotes of one sort of literal."""

    name: str
    full_x: bool  # \xNN may pass 7F
    unicode: bool  # \u{...} and characters beyond ASCII
    nul: bool  # the byte 0


IN_STRING = Quoting("string", full_x=False, unicode=True, nul=True)
IN_CHAR = Quoting("char", full_x=False, unicode=True, nul=True)
IN_BYTE_STRING = Quoting("byte string", full_x=True, unicode=False, nul=True)
IN_BYTE = Quoting("byte", full_x=True, unicode=False, nul=True)
IN_C_STRING = Quoting("C string", full_x=True, unicode=True, nul=False)

SIMPLE_ESCAPES = {
    "n": b"\n", "r": b"\r", "t": b"\t", "0": b"\0", "\\": b"\\", '"': b'"', "'": b"'",
}

# Rust's white space. A byte order mark is skipped at the start of the text only.
WHITE_SPACE = "\t\n\v\f\r \u0085\u200e\u200f\u2028\u2029"

RADIX_PREFIXES = {"0x": 16, "0o": 8, "0b": 2}
RADIX_RUN = re.compile(r"[0-9A-Za-z_]*")
DECIMAL = re.compile(r"[0-9][0-9_]*")
EXPONENT = r"[eE][+-]?_*[0-9][0-9_]*"
FLOAT_FORM = re.compile(rf"[0-9][0-9_]*(?:\.[0-9][0-9_]*(?:{EXPONENT})?|{EXPONENT})")
RAW_STRING = re.compile(r'(?:r|br|cr)#*"')

# Rust does not allow these names in their raw form.
NOT_RAW = ("_", "crate", "self", "super", "Self")


def starts_name(char: str) -> bool:
    return char == "_" or char.isidentifier()


def continues_name(char: str) -> bool:
    return char != "" and ("_" + char).isidentifier()


def float_bits(number: float) -> int:
    """The bit pattern of an f64 that is not negative."""
    return struct.unpack("<Q", struct.pack("<d", number))[0]


def integer_record(digits: str, radix: int) -> Record:
    """The record of an integer; `digits` has no underscores and no prefix."""
    if radix == 10:
        # float() rounds a decimal text of any length to the nearest f64, and a
        # number of more than 20 digits is beyond 64 bits. So a very long text
        # never passes through int(), which limits the digits it accepts.
        significant = digits.lstrip("0") or "0"
        fits = len(significant) <= 20 and int(significant) <= MAX_U64
        value = int(significant) if fits else 0
        bits = float_bits(float(digits))
    else:
        number = int(digits, radix)
        fits = number <= MAX_U64
        value = number if fits else 0
        bits = nearest_bits(number)
    return Record(LITERAL, INTEGER, mark=0 if fits else 1, value=value, bits=bits)


def nearest_bits(number: int) -> int:
    try:
        return float_bits(float(number))
    except OverflowError:
        return INFINITY_BITS


@dataclass
class Token:
    """A record to be, with what its pool or its body will hold."""

    record: Record
    at: int  # character index in the text
    name: Optional[bytes] = None
    string: Optional[bytes] = None
    body: Optional[list["Token"]] = None
    closes: Optional[int] = None  # the group kind that a closing bracket ends


class Lexer:
    """Reads one token after another from a text."""

    def __init__(self, text: str) -> None:
        self.text = text
        self.at = 1 if text.startswith("\ufeff") else 0
        # Byte offset of character `counted`, moved forward token by token.
        self.counted = 0
        self.bytes_counted = 0

    def peek(self, ahead: int = 0) -> str:
        """The character `ahead` places on, or "" past the end."""
        at = self.at + ahead
        return self.text[at] if at < len(self.text) else ""

    def fail(self, message: str, at: Optional[int] = None) -> NoReturn:
        raise TextError(message, self.at if at is None else at)

    def byte_offset(self, at: int) -> int:
        self.bytes_counted += len(self.text[self.counted:at].encode("utf-8"))
        self.counted = at
        return self.bytes_counted

    def next_token(self) -> Optional[Token]:
        """The next token, or None at the end of the text."""
        self.skip_space()
        if self.at == len(self.text):
            return None
        start = self.at
        token = self.read_token(start)
        token.record.place = self.byte_offset(start)
        return token

    def skip_space(self) -> None:
        while self.at < len(self.text):
            if self.peek() in WHITE_SPACE:
                self.at += 1
            elif self.text.startswith("//", self.at):
                end = self.text.find("\n", self.at)
                self.at = len(self.text) if end < 0 else end
            elif self.text.startswith("/*", self.at):
                self.fail("a comment of the form /* */ is not supported; use //")
            else:
                return

    def read_token(self, start: int) -> Token:
        char = self.peek()
        if char in OPENING:
            self.at += 1
            return Token(Record(GROUP, OPENING[char]), start, body=[])
        if char in CLOSING:
            self.at += 1
            return Token(Record(), start, closes=CLOSING[char])
        if char == '"':
            return self.read_string(STRING, IN_STRING, start)
        if self.text.startswith('b"', start):
            return self.read_string(BYTE_STRING, IN_BYTE_STRING, start)
        if self.text.startswith('c"', start):
            return self.read_string(C_STRING, IN_C_STRING, start)
        if self.text.startswith("b'", start):
            return self.read_byte(start)
        if self.opens_char():
            return self.read_char(start)
        if char in "0123456789":
            return self.read_number(start)
        if starts_name(char):
            return self.read_name(start)
        if char in PUNCTS:
            self.at += 1
            return Token(Record(PUNCT, ord(char)), start)
        self.fail(f"no token starts with {char!r} (U+{ord(char):04X})")

    # Names

    def read_name(self, start: int) -> Token:
        if RAW_STRING.match(self.text, start):
            self.fail("raw strings are not supported; write the string with escapes")
        if self.text.startswith("r#", start) and starts_name(self.peek(2)):
            self.at += 2
        plain_start = self.at
        while continues_name(self.peek()):
            self.at += 1
        name = self.text[start:self.at]
        if plain_start > start and self.text[plain_start:self.at] in NOT_RAW:
            self.fail(f"`{name}` is not a name that Rust allows", start)
        if self.peek() in ('"', "'"):
            self.fail(f"unknown prefix `{name}` before a quote; put a space between them", start)
        # Rust compares names in this normal form, so that is what is stored.
        stored = unicodedata.normalize("NFC", name).encode("utf-8")
        return Token(Record(IDENT), start, name=stored)

    # Numbers

    def read_number(self, start: int) -> Token:
        radix = RADIX_PREFIXES.get(self.text[start:start + 2])
        if radix is not None:
            record = self.read_radix_integer(radix, start)
        elif match := FLOAT_FORM.match(self.text, start):
            record = self.take_float(match.group())
        else:
            digits = DECIMAL.match(self.text, start).group()
            if self.point_ends_float(start + len(digits)):
                record = self.take_float(digits + ".")
            else:
                self.at += len(digits)
                record = integer_record(digits.replace("_", ""), 10)
        self.refuse_suffix(start)
        return Token(record, start)

    def point_ends_float(self, at: int) -> bool:
        """Whether a float ends in a bare point here: `1.`, not `1..2` or `1.x`."""
        after = self.text[at + 1:at + 2]
        return self.text[at:at + 1] == "." and after != "." and not starts_name(after)

    def take_float(self, form: str) -> Record:
        self.at += len(form)
        return Record(LITERAL, FLOAT, bits=float_bits(float(form.replace("_", ""))))

    def read_radix_integer(self, radix: int, start: int) -> Record:
        run = RADIX_RUN.match(self.text, start + 2).group()
        digits = run.replace("_", "")
        if digits == "":
            self.fail("the number has no digits", start)
        for place, char in enumerate(run):
            if char != "_" and not self.is_digit(char, radix):
                self.fail(f"`{char}` is not a digit in base {radix}", start + 2 + place)
        self.at = start + 2 + len(run)
        return integer_record(digits, radix)

    @staticmethod
    def is_digit(char: str, radix: int) -> bool:
        return char.lower() in "0123456789abcdef"[:radix]

    def refuse_suffix(self, start: int) -> None:
        if continues_name(self.peek()):
            literal = self.text[start:self.at]
            self.fail(f"`{literal}` is followed by `{self.peek()}`; a sheet holds no suffix")

    # Quoted literals

    def read_string(self, sub: int, quoting: Quoting, start: int) -> Token:
        self.at = self.text.index('"', start) + 1
        parts = []
        while self.peek() != '"':
            if self.peek() == "":
                self.fail(f"the {quoting.name} is not closed", start)
            parts.append(self.read_unit(quoting))
        self.at += 1
        self.refuse_suffix(start)
        # The format keeps the content of plain strings only.
        string = b"".join(parts) if sub == STRING else None
        return Token(Record(LITERAL, sub), start, string=string)

    def opens_char(self) -> bool:
        """The rule that tells a char literal from the punct `'`."""
        if self.peek() != "'":
            return False
        inside = self.peek(1)
        if inside == "\\":
            return True
        return inside not in ("", "'", "\n", "\r", "\t") and self.peek(2) == "'"

    def read_char(self, start: int) -> Token:
        char = self.read_single(IN_CHAR, start).decode("utf-8")
        return Token(Record(LITERAL, CHAR, value=ord(char)), start)

    def read_byte(self, start: int) -> Token:
        if self.peek(2) in ("'", "\n", "\r", "\t"):
            self.fail("a byte literal holds one character or escape", start)
        self.read_single(IN_BYTE, start)
        return Token(Record(LITERAL, BYTE), start)

    def read_single(self, quoting: Quoting, start: int) -> bytes:
        """The bytes of the one character between two single quotes."""
        self.at = self.text.index("'", start) + 1
        if self.peek() == "":
            self.fail(f"the {quoting.name} literal is not closed", start)
        unit = self.read_unit(quoting)
        if self.peek() != "'":
            self.fail(f"the {quoting.name} literal is not closed after one character", start)
        self.at += 1
        self.refuse_suffix(start)
        return unit

    def read_unit(self, quoting: Quoting) -> bytes:
        """One character or escape of a quoted literal, as bytes."""
        start = self.at
        if self.peek() == "\r":
            # Rust reads a line end of two characters as a line feed.
            if self.peek(1) != "\n":
                self.fail("a carriage return by itself must be written \\r")
            self.at += 1
        char = self.peek()
        self.at += 1
        unit = self.read_escape(quoting, start) if char == "\\" else char.encode("utf-8")
        if char != "\\" and not quoting.unicode and len(unit) > 1:
            self.fail(f"a {quoting.name} holds ASCII characters only", start)
        if not quoting.nul and unit == b"\0":
            self.fail(f"a {quoting.name} holds no NUL", start)
        return unit

    def read_escape(self, quoting: Quoting, start: int) -> bytes:
        char = self.peek()
        if char in SIMPLE_ESCAPES:
            self.at += 1
            return SIMPLE_ESCAPES[char]
        if char == "x":
            return self.read_x_escape(quoting, start)
        if char == "u":
            return self.read_u_escape(quoting, start)
        self.fail("unknown escape", start)

    def read_x_escape(self, quoting: Quoting, start: int) -> bytes:
        match = re.compile(r"x([0-9A-Fa-f]{2})").match(self.text, self.at)
        if match is None:
            self.fail("\\x needs two hexadecimal digits", start)
        code = int(match.group(1), 16)
        if code > 0x7F and not quoting.full_x:
            self.fail(f"\\x in a {quoting.name} goes up to 7F; use \\u{{...}}", start)
        self.at = match.end()
        return bytes([code])

    def read_u_escape(self, quoting: Quoting, start: int) -> bytes:
        if not quoting.unicode:
            self.fail(f"\\u is not allowed in a {quoting.name}", start)
        match = re.compile(r"u\{((?:[0-9A-Fa-f]_*){1,6})\}").match(self.text, self.at)
        if match is None:
            self.fail("\\u needs one to six hexadecimal digits in braces", start)
        code = int(match.group(1).replace("_", ""), 16)
        if not is_scalar(code):
            self.fail(f"U+{code:04X} is not a Unicode scalar value", start)
        self.at = match.end()
        return chr(code).encode("utf-8")


def is_scalar(code: int) -> bool:
    """Whether a number is a Unicode scalar value."""
    return code <= 0xD7FF or 0xE000 <= code <= 0x10FFFF


# --- From tokens to a sheet -----------------------------------------------


@dataclass
class Pools:
    """The two stretches of text behind the records, filled in text order."""

    names: bytearray = field(default_factory=bytearray)
    strings: bytearray = field(default_factory=bytearray)
    known: dict[bytes, int] = field(default_factory=dict)

    def place_text(self, token: Token) -> None:
        """Set a and b of a token that has a name or a string."""
        if token.name is not None:
            if token.name not in self.known:
                self.known[token.name] = append(self.names, token.name, "names", token.at)
            token.record.a, token.record.b = self.known[token.name], len(token.name)
        elif token.string is not None:
            token.record.a = append(self.strings, token.string, "strings", token.at)
            token.record.b = len(token.string)


def append(pool: bytearray, content: bytes, what: str, at: int) -> int:
    """Add to a pool and give back where the addition starts."""
    start = len(pool)
    if start + len(content) > MAX_POOL:
        raise TextError(f"the {what} take over {MAX_POOL:,} bytes from here on", at)
    pool += content
    return start


def read_tree(text: str) -> tuple[Token, Pools]:
    """Read the whole text into a tree below the brace that wraps it."""
    lexer, pools = Lexer(text), Pools()
    root = Token(Record(GROUP, BRACE), 0, body=[])
    open_groups, count = [root], 1
    while (token := lexer.next_token()) is not None:
        if token.closes is not None:
            close_group(open_groups, token, text)
            continue
        count += 1
        check_room(count, len(open_groups), token)
        pools.place_text(token)
        open_groups[-1].body.append(token)
        if token.body is not None:
            open_groups.append(token)
    if len(open_groups) > 1:
        opening = open_groups[-1]
        raise TextError(f"`{text[opening.at]}` is not closed", opening.at)
    return root, pools


def close_group(open_groups: list[Token], token: Token, text: str) -> None:
    bracket = text[token.at]
    if len(open_groups) == 1:
        raise TextError(f"`{bracket}` closes nothing", token.at)
    opening = open_groups[-1]
    if opening.record.sub != token.closes:
        line, column = line_and_column(text, opening.at)
        raise TextError(
            f"`{bracket}` does not close `{text[opening.at]}` of line {line}, column {column}",
            token.at,
        )
    open_groups.pop()


def check_room(count: int, depth: int, token: Token) -> None:
    if count > MAX_RECORDS:
        raise TextError(f"the sheet takes over {MAX_RECORDS:,} records from here on", token.at)
    if depth > MAX_DEPTH:
        raise TextError(f"this token lies deeper than {MAX_DEPTH}", token.at)


def breadth_first(root: Token) -> list[Record]:
    """Order the records and give each group the place of its body."""
    tokens = [root]
    for token in tokens:  # the list grows while it is walked
        if token.body is not None:
            token.record.a = len(tokens)
            token.record.b = len(token.body)
            tokens.extend(token.body)
    return [token.record for token in tokens]


def make_sheet(text: str) -> bytes:
    """The bytes of the sheet for a text. Raises TextError."""
    root, pools = read_tree(text)
    records = breadth_first(root)
    head = HEAD.pack(len(records), len(pools.names), len(pools.strings))
    body = b"".join(RECORD.pack(*astuple(record)) for record in records)
    sheet = head + body + pools.names + pools.strings
    refused = find_refusal(sheet)
    if refused is not None:
        raise AssertionError(f"made an unlawful sheet: {refused}")
    return sheet


def line_and_column(text: str, at: int) -> tuple[int, int]:
    """Line and column of a character, both counted from 1."""
    before = text[:at]
    return before.count("\n") + 1, at - (before.rfind("\n") + 1) + 1


# --- Checking a sheet -----------------------------------------------------


class Refusal(NamedTuple):
    """Why a reader refuses a file: the number, the record and the reason."""

    number: int
    record: int
    reason: str


def find_refusal(sheet: bytes) -> Optional[Refusal]:
    """The first rule that a file breaks, or None. Number 7 is not a file's fault."""
    if len(sheet) < HEAD.size:
        return Refusal(1, 0, f"the file has {len(sheet)} bytes, under {HEAD.size}")
    count, names, strings = HEAD.unpack_from(sheet)
    if not 1 <= count <= MAX_RECORDS or names > MAX_POOL or strings > MAX_POOL:
        return Refusal(2, 0, f"the head says {count}, {names}, {strings}")
    length = HEAD.size + RECORD.size * count + names + strings
    if len(sheet) != length:
        return Refusal(3, 0, f"the file has {len(sheet)} bytes, the head says {length}")
    return find_record_refusal(read_records(sheet, count), names, strings)


def read_records(sheet: bytes, count: int) -> list[Record]:
    return [
        Record(*RECORD.unpack_from(sheet, HEAD.size + RECORD.size * number))
        for number in range(count)
    ]


def find_record_refusal(records: list[Record], names: int, strings: int) -> Optional[Refusal]:
    depths = [0]  # of every record that lies in a body read so far
    for number, record in enumerate(records):
        fault = field_fault(record, names, strings)
        if fault is not None:
            return Refusal(4, number, fault)
        fault = order_fault(number, record, len(depths), len(records))
        if fault is not None:
            return Refusal(5, number, fault)
        if depths[number] > MAX_DEPTH:
            return Refusal(6, number, f"the depth is {depths[number]}")
        if record.kind == GROUP:
            depths += [depths[number] + 1] * record.b
    return None


def field_fault(record: Record, names: int, strings: int) -> Optional[str]:
    if record.kind == IDENT:
        return part_fault(record, names, "names")
    if record.kind == PUNCT:
        return None if record.sub in PUNCTS.encode() else f"no punct has the code {record.sub}"
    if record.kind == LITERAL:
        return literal_fault(record, strings)
    if record.kind == GROUP:
        return None if record.sub <= INVISIBLE else f"no group has the sub {record.sub}"
    return f"the kind {record.kind} is unknown"


def literal_fault(record: Record, strings: int) -> Optional[str]:
    if record.sub > OTHER:
        return f"no literal has the sub {record.sub}"
    if record.sub == STRING:
        return part_fault(record, strings, "strings")
    if record.sub == CHAR and not is_scalar(record.value):
        return f"{record.value:#x} is not a Unicode scalar value"
    if record.sub == INTEGER and record.mark > 1:
        return f"an integer has the mark {record.mark}"
    if record.sub in (INTEGER, FLOAT) and record.bits > INFINITY_BITS:
        return f"the bits {record.bits:#018x} are above infinity"
    return None


def part_fault(record: Record, size: int, what: str) -> Optional[str]:
    if record.a + record.b <= size:
        return None
    return f"start {record.a} and length {record.b} pass the {size} bytes of {what}"


def order_fault(number: int, record: Record, next_body: int, count: int) -> Optional[str]:
    """`next_body` is where the bodies read so far end."""
    if number == 0 and (record.kind != GROUP or record.sub != BRACE):
        return "record 0 is no brace"
    if number >= next_body:
        return "the record lies in no body"
    if record.kind != GROUP:
        return None
    if record.a != next_body:
        return f"the body begins at {record.a}, not at {next_body}"
    if record.a + record.b > count:
        return f"the body ends at {record.a + record.b}, past the {count} records"
    return None


# --- Damage on purpose ----------------------------------------------------

SETTING = re.compile(r"(head|[0-9]+)\.([A-Za-z0-9]+)=(\w+)")


def apply_setting(sheet: bytearray, setting: str, count: int) -> None:
    """Carry out one --set on a sheet that was made with `count` records."""
    match = SETTING.fullmatch(setting)
    if match is None:
        raise UseError(f"--set {setting}: write RECORD.FIELD=VALUE or head.FIELD=VALUE")
    target, name, value = match.groups()
    fields = HEAD_FIELDS if target == "head" else RECORD_FIELDS
    if name not in fields:
        raise UseError(f"--set {setting}: the fields are {', '.join(fields)}")
    if target != "head" and int(target) >= count:
        raise UseError(f"--set {setting}: the last record is {count - 1}")
    offset, size = fields[name]
    if target != "head":
        offset += HEAD.size + RECORD.size * int(target)
    try:
        sheet[offset:offset + size] = int(value, 0).to_bytes(size, "little")
    except ValueError:
        raise UseError(f"--set {setting}: {value} is not a number") from None
    except OverflowError:
        raise UseError(f"--set {setting}: {value} does not fit in {size} bytes") from None


def damage(sheet: bytes, settings: list[str], cut: int, pad: int) -> bytes:
    """First the settings, then the cut, then the padding."""
    changed = bytearray(sheet)
    count = HEAD.unpack_from(sheet)[0]
    for setting in settings:
        apply_setting(changed, setting, count)
    if cut > len(changed):
        raise UseError(f"--cut {cut}: the sheet has {len(changed)} bytes")
    return bytes(changed[:len(changed) - cut]) + bytes(pad)


# --- Showing a sheet ------------------------------------------------------

COLUMNS = ("record", "kind", "sub", "mark", "a", "b", "place", "value", "bits", "meaning")


def show_sheet(sheet: bytes) -> str:
    """The head, a table of the records and the verdict, as text."""
    lines = []
    if len(sheet) >= HEAD.size:
        count, names, strings = HEAD.unpack_from(sheet)
        lines.append(f"{len(sheet)} bytes; N = {count}, L1 = {names}, L2 = {strings}")
        # A damaged head may promise more records than the file holds.
        whole = min(count, (len(sheet) - HEAD.size) // RECORD.size)
        names_start = HEAD.size + RECORD.size * count
        name_pool = sheet[names_start:names_start + names]
        string_pool = sheet[names_start + names:names_start + names + strings]
        rows = [COLUMNS] + [
            show_row(number, record, name_pool, string_pool)
            for number, record in enumerate(read_records(sheet, whole))
        ]
        lines += align(rows)
    refused = find_refusal(sheet)
    if refused is None:
        lines.append("lawful")
    else:
        lines.append(f"refused with {refused.number} at record {refused.record}: {refused.reason}")
    return "\n".join(lines)


def show_row(number: int, record: Record, names: bytes, strings: bytes) -> tuple[str, ...]:
    return (
        str(number), str(record.kind), str(record.sub), str(record.mark), str(record.a),
        str(record.b), str(record.place), str(record.value), f"{record.bits:016x}",
        meaning(record, names, strings),
    )


def meaning(record: Record, names: bytes, strings: bytes) -> str:
    """The record in words, as far as its kind and sub are known."""
    if record.kind == IDENT:
        return f"identifier {show_part(record, names)}"
    if record.kind == PUNCT:
        return f"punct {chr(record.sub)!r}"
    if record.kind == LITERAL and record.sub <= OTHER:
        return f"{LITERAL_NAMES[record.sub]} {literal_content(record, strings)}".rstrip()
    if record.kind == GROUP and record.sub <= INVISIBLE:
        return f"{GROUP_NAMES[record.sub]}, body {record.a} to before {record.a + record.b}"
    return "unknown"


def literal_content(record: Record, strings: bytes) -> str:
    if record.sub == STRING:
        return show_part(record, strings)
    if record.sub == CHAR:
        return repr(chr(record.value)) if is_scalar(record.value) else f"{record.value:#x}"
    if record.sub == INTEGER:
        return str(record.value) if record.mark == 0 else "beyond 64 bits"
    if record.sub == FLOAT:
        return repr(struct.unpack("<d", struct.pack("<Q", record.bits))[0])
    return ""


def show_part(record: Record, pool: bytes) -> str:
    if record.a + record.b > len(pool):
        return "outside the pool"
    return repr(pool[record.a:record.a + record.b].decode("utf-8", "backslashreplace"))


def align(rows: list[tuple[str, ...]]) -> list[str]:
    """Right-align every column but the last."""
    widths = [max(len(row[i]) for row in rows) for i in range(len(COLUMNS) - 1)]
    return [
        "  ".join([cell.rjust(width) for cell, width in zip(row, widths)] + [row[-1]])
        for row in rows
    ]


# --- The command ----------------------------------------------------------

DESCRIPTION = "Make a sheet file from a text of tokens, or show the records of a sheet."

EPILOG = """\
The text is written with Rust's tokens:
  names           gauge, _, r#type (the r# is part of the name)
  puncts          = < > ! ~ + - * / % ^ & | @ . , ; : # $ ? '
                  each one is a token by itself: => is two tokens
  integers        12, 1_000, 0x1F, 0o17, 0b1010; of any size
  floats          12.5, 1e3, 2.5e-3, 1.
  strings         "..." with \\n \\r \\t \\0 \\\\ \\" \\' \\xNN \\u{...}
  chars           'x', '\\n'
  byte strings    b"..."        C strings   c"..."        bytes   b'x'
  groups          ( ) { } [ ]; invisible groups \u27e6 \u27e7 (U+27E6, U+27E7)
  comments        // to the end of the line; /// and //! are comments as well
Block comments, raw strings and suffixes (12u8) are refused. A negative number
is the punct - followed by a number. The words true and false are names. No text
makes a literal of the sub `other`; use --set for one.

A single quote opens a char literal when a backslash follows it, or when one
character follows it (not a quote, line end or tab) and then a second quote.
Anywhere else it is a punct: 'a' is a char, 'a is a punct and a name.

Each distinct name is stored once, in the order of first use in the text.
Strings are stored end to end in the order of the text, repeats included. The
place of a record is the byte offset of its token in the text; record 0 has 0.

Damage is done to the sheet once it is made: first every --set in the order
given, then --cut, then --pad. VALUE is decimal, or hexadecimal with 0x.

--show ends with one line: `lawful`, or the number of the refusal and the record
it names. It does not need the file to be lawful.

Exit status: 0 done; 1 the text, a file or a --set is refused (a message with
line and column goes to standard error and no sheet is written); 2 wrong usage.

example:
  printf 'a = (1, 2)' > pair.txt
  python3 tools/make_sheet.py pair.txt pair.sheet
  python3 tools/make_sheet.py --show pair.sheet
  python3 tools/make_sheet.py pair.txt bad.sheet --set 3.a=5     (refused with 5)
  python3 tools/make_sheet.py pair.txt short.sheet --cut 1       (refused with 3)
"""


def byte_count(text: str) -> int:
    count = int(text, 10)
    if count < 0:
        raise ValueError
    return count


def make_parser() -> argparse.ArgumentParser:
    parser = argparse.ArgumentParser(
        description=DESCRIPTION,
        epilog=EPILOG,
        formatter_class=argparse.RawDescriptionHelpFormatter,
        usage="make_sheet.py TEXT SHEET [--set ...] [--cut BYTES] [--pad BYTES]\n"
        "       make_sheet.py --show SHEET",
        allow_abbrev=False,
    )
    parser.add_argument("text", metavar="TEXT", nargs="?", help="the text to read")
    parser.add_argument("sheet", metavar="SHEET", nargs="?", help="the sheet to write")
    parser.add_argument("--show", metavar="SHEET", help="print the records of a sheet")
    parser.add_argument(
        "--set", metavar="RECORD.FIELD=VALUE", action="append", default=[], dest="settings",
        help="change a field of a record (kind sub mark a b place value bits) or of the "
        "head (head.N head.L1 head.L2); may be repeated",
    )
    parser.add_argument(
        "--cut", metavar="BYTES", type=byte_count, default=0, help="drop bytes from the end"
    )
    parser.add_argument(
        "--pad", metavar="BYTES", type=byte_count, default=0, help="add bytes of 0 at the end"
    )
    return parser


def read_text(raw: bytes) -> str:
    if len(raw) > MAX_U32:
        raise TextError("the text is too long for a place of four bytes", 0)
    try:
        return raw.decode("utf-8")
    except UnicodeDecodeError as error:
        before = raw[:error.start].decode("utf-8")
        raise TextError("the text is not UTF-8 from here on", len(before)) from None


def read_file(path: str) -> bytes:
    with open(path, "rb") as file:
        return file.read()


def make_file(args: argparse.Namespace) -> None:
    raw = read_file(args.text)
    try:
        sheet = make_sheet(read_text(raw))
    except TextError as error:
        # Up to the error the text is UTF-8, so its line and column are right.
        line, column = line_and_column(raw.decode("utf-8", "replace"), error.at)
        raise UseError(f"{args.text}:{line}:{column}: {error.message}") from None
    sheet = damage(sheet, args.settings, args.cut, args.pad)
    with open(args.sheet, "wb") as file:
        file.write(sheet)


def main(arguments: Optional[list[str]] = None) -> int:
    parser = make_parser()
    args = parser.parse_args(arguments)
    if args.show is not None:
        if args.text is not None or args.settings or args.cut or args.pad:
            parser.error("--show takes one sheet and nothing else")
    elif args.sheet is None:
        parser.error("give a TEXT and a SHEET, or --show SHEET")
    try:
        if args.show is not None:
            print(show_sheet(read_file(args.show)))
        else:
            make_file(args)
    except (UseError, OSError) as error:
        print(error, file=sys.stderr)
        return 1
    return 0


if __name__ == "__main__":
    sys.exit(main())

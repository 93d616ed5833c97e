"""Tests of make_sheet.py. Run: python3 tools/test_make_sheet.py"""

from __future__ import annotations

import contextlib
import io
import os
import struct
import sys
import tempfile
import unittest

sys.path.insert(0, os.path.dirname(os.path.abspath(__file__)))

import make_sheet as tool  # noqa: E402


def records_of(text: str) -> list[tool.Record]:
    sheet = tool.make_sheet(text)
    return tool.read_records(sheet, tool.HEAD.unpack_from(sheet)[0])


def pools_of(text: str) -> tuple[bytes, bytes]:
    sheet = tool.make_sheet(text)
    count, names, strings = tool.HEAD.unpack_from(sheet)
    start = 12 + 32 * count
    return sheet[start:start + names], sheet[start + names:start + names + strings]


def only(text: str) -> tool.Record:
    """The record of a text of one token, with its place taken out."""
    records = records_of(text)
    assert len(records) == 2, records
    records[1].place = 0
    return records[1]


def bits(number: float) -> int:
    return struct.unpack("<Q", struct.pack("<d", number))[0]


class Layout(unittest.TestCase):
    def test_sizes(self) -> None:
        self.assertEqual(tool.HEAD.size, 12)
        self.assertEqual(tool.RECORD.size, 32)

    def test_bytes_of_a_small_sheet(self) -> None:
        sheet = tool.make_sheet("a = (1, 2)")
        self.assertEqual(len(sheet), 12 + 32 * 7 + 1)
        self.assertEqual(sheet[:12].hex(), "070000000100000000000000")
        self.assertEqual(sheet[12:44].hex(), "03010000" "01000000" "03000000" + "00" * 20)
        # Record 4 is the integer 1.
        self.assertEqual(
            sheet[140:172].hex(),
            "02050000" "00000000" "00000000" "05000000" "0100000000000000" "000000000000f03f",
        )
        self.assertEqual(sheet[236:], b"a")

    def test_empty_text(self) -> None:
        self.assertEqual(records_of(""), [tool.Record(tool.GROUP, tool.BRACE, a=1)])

    def test_field_offsets_match_the_layout(self) -> None:
        offset = 0
        for name, (start, size) in tool.RECORD_FIELDS.items():
            self.assertEqual(start, offset, name)
            offset += size
        self.assertEqual(offset, 32)


class Names(unittest.TestCase):
    def test_name(self) -> None:
        self.assertEqual(only("gauge"), tool.Record(tool.IDENT, b=5))
        self.assertEqual(pools_of("_ a1"), (b"_a1", b""))

    def test_raw_name_keeps_its_prefix(self) -> None:
        self.assertEqual(pools_of("r#type")[0], b"r#type")
        self.assertEqual(len(records_of("r # type")), 4)

    def test_each_name_is_stored_once_in_text_order(self) -> None:
        # In record order `c` would come before `b`.
        self.assertEqual(pools_of("a (b a) c b")[0], b"abc")
        a, _, c, b = records_of("a (b a) c b")[1:5]
        self.assertEqual((a.a, c.a, b.a), (0, 2, 1))

    def test_name_beyond_ascii(self) -> None:
        # e and a combining accent are stored in the composed form.
        self.assertEqual(pools_of("e\u0301")[0], "\u00e9".encode())

    def test_booleans_are_names(self) -> None:
        self.assertEqual(only("true").kind, tool.IDENT)


class Puncts(unittest.TestCase):
    def test_all(self) -> None:
        self.assertEqual(len(tool.PUNCTS), 22)
        records = records_of(" ".join(tool.PUNCTS))[1:]
        self.assertEqual([r.sub for r in records], [ord(c) for c in tool.PUNCTS])
        self.assertEqual({r.kind for r in records}, {tool.PUNCT})

    def test_each_is_a_token(self) -> None:
        self.assertEqual([r.sub for r in records_of("=>..=")[1:]], list(b"=>..="))

    def test_single_quote(self) -> None:
        self.assertEqual(only("'").sub, ord("'"))
        self.assertEqual([r.kind for r in records_of("'a")[1:]], [tool.PUNCT, tool.IDENT])
        self.assertEqual([r.kind for r in records_of("''")[1:]], [tool.PUNCT, tool.PUNCT])
        self.assertEqual(only("'a'").kind, tool.LITERAL)


class Integers(unittest.TestCase):
    def check(self, text: str, value: int) -> None:
        expected = tool.Record(tool.LITERAL, tool.INTEGER, value=value, bits=bits(float(value)))
        self.assertEqual(only(text), expected, text)

    def test_bases(self) -> None:
        for text, value in (
            ("0", 0), ("12", 12), ("1_000_", 1000), ("007", 7), ("0x1f", 31), ("0xFF_ff", 65535),
            ("0o17", 15), ("0b1010", 10), ("0b_1", 1),
        ):
            self.check(text, value)

    def test_64_bits(self) -> None:
        self.check("18446744073709551615", 2**64 - 1)
        self.check("0xFFFF_FFFF_FFFF_FFFF", 2**64 - 1)
        for text in ("18446744073709551616", "0x1_0000_0000_0000_0000"):
            expected = tool.Record(tool.LITERAL, tool.INTEGER, mark=1, bits=bits(2.0**64))
            self.assertEqual(only(text), expected)

    def test_beyond_f64(self) -> None:
        for text in ("1" + "0" * 309, "9" * 5000, "0x1" + "0" * 256):
            record = only(text)
            self.assertEqual((record.mark, record.bits), (1, tool.INFINITY_BITS))

    def test_nearest_f64(self) -> None:
        # Halfway between two f64 values: the even one is taken.
        self.assertEqual(only("9007199254740993").bits, bits(9007199254740992.0))
        self.assertEqual(only("0x20000000000003").bits, bits(9007199254740996.0))

    def test_sign_is_a_punct(self) -> None:
        minus, twelve = records_of("-12")[1:]
        self.assertEqual((minus.sub, twelve.value), (ord("-"), 12))

    def test_points_that_are_puncts(self) -> None:
        self.assertEqual([r.kind for r in records_of("1..2")[1:]], [2, 1, 1, 2])
        self.assertEqual([r.kind for r in records_of("1.x")[1:]], [2, 1, 0])


class Floats(unittest.TestCase):
    def test_forms(self) -> None:
        for text, number in (
            ("12.5", 12.5), ("1e3", 1000.0), ("2.5E-3", 0.0025), ("1_0.2_5", 10.25), ("1.", 1.0),
            ("1e+2", 100.0), ("0.1", 0.1), ("1e400", float("inf")), ("1e-400", 0.0),
        ):
            expected = tool.Record(tool.LITERAL, tool.FLOAT, bits=bits(number))
            self.assertEqual(only(text), expected, text)


class Quoted(unittest.TestCase):
    def test_strings(self) -> None:
        text = r'"a\n\r\t\0\\\"\'\x41\u{e9}\u{1_F600}"'
        self.assertEqual(pools_of(text)[1], "a\n\r\t\0\\\"'A\u00e9\U0001f600".encode())
        self.assertEqual(only('"abc"'), tool.Record(tool.LITERAL, tool.STRING, b=3))

    def test_strings_lie_end_to_end_in_text_order(self) -> None:
        self.assertEqual(pools_of('("b" "") "c" "b"')[1], b"bcb")
        parts = [(r.a, r.b) for r in records_of('("b" "") "c" "b"')[2:]]
        self.assertEqual(parts, [(1, 1), (2, 1), (0, 1), (1, 0)])

    def test_line_ends_in_strings(self) -> None:
        self.assertEqual(pools_of('"a\r\nb\nc"')[1], b"a\nb\nc")

    def test_chars(self) -> None:
        for text, value in (
            ("'x'", 0x78), ("' '", 0x20), (r"'\''", 0x27), (r"'\n'", 10), ("'\u20ac'", 0x20AC),
            (r"'\u{10FFFF}'", 0x10FFFF), (r"'\x7F'", 0x7F), ("'\"'", 0x22),
        ):
            self.assertEqual(only(text), tool.Record(tool.LITERAL, tool.CHAR, value=value), text)

    def test_literals_without_content(self) -> None:
        for text, sub in (
            (r'b"a\xFF\""', tool.BYTE_STRING), (r'c"a\xFF\u{e9}"', tool.C_STRING),
            ("b'x'", tool.BYTE), (r"b'\xFF'", tool.BYTE), (r"b'\''", tool.BYTE),
        ):
            self.assertEqual(only(text), tool.Record(tool.LITERAL, sub), text)
            self.assertEqual(pools_of(text), (b"", b""))


class Groups(unittest.TestCase):
    def test_kinds(self) -> None:
        subs = [r.sub for r in records_of("() {} [] \u27e6\u27e7")[1:]]
        self.assertEqual(subs, [tool.PAREN, tool.BRACE, tool.BRACKET, tool.INVISIBLE])

    def test_breadth_first(self) -> None:
        records = records_of("(1 [2] 3) {} 4 (5)")
        bodies = [(r.a, r.b) for r in records if r.kind == tool.GROUP]
        self.assertEqual(bodies, [(1, 4), (5, 3), (8, 0), (8, 1), (9, 1)])
        values = [r.value for r in records if r.kind == tool.LITERAL]
        self.assertEqual(values, [4, 1, 3, 5, 2])

    def test_last_empty_group_begins_at_the_end(self) -> None:
        self.assertEqual(records_of("1 ()")[2].a, 3)


class Places(unittest.TestCase):
    def test_byte_offsets(self) -> None:
        text = '// caf\u00e9\n"\u20ac" = (\u27e61\u27e7)'
        raw = text.encode()
        places = [r.place for r in records_of(text)]
        wanted = [0] + [raw.index(s) for s in (b'"', b"=", b"(", "\u27e6".encode(), b"1")]
        self.assertEqual(places, wanted)

    def test_byte_order_mark(self) -> None:
        self.assertEqual(records_of("\ufeffa")[1].place, 3)


class Limits(unittest.TestCase):
    def test_records(self) -> None:
        self.assertEqual(len(records_of("," * 1023)), 1024)
        self.assert_refused("," * 1024, 1, 1024, "records")

    def test_names(self) -> None:
        self.assertEqual(len(pools_of("a" * 8192)[0]), 8192)
        self.assert_refused("a" * 8191 + "\nbb", 2, 1, "names")

    def test_strings(self) -> None:
        self.assertEqual(len(pools_of('"' + "a" * 8192 + '" ""')[1]), 8192)
        self.assert_refused('"' + "a" * 8192 + '" "b"', 1, 8196, "strings")

    def test_depth(self) -> None:
        records_of("(" * 32 + ")" * 32)
        records_of("(" * 31 + "x" + ")" * 31)
        self.assert_refused("(" * 32 + "x" + ")" * 32, 1, 33, "deeper")
        self.assert_refused("(" * 33 + ")" * 33, 1, 33, "deeper")

    def assert_refused(self, text: str, line: int, column: int, word: str) -> None:
        with self.assertRaises(tool.TextError) as caught:
            tool.make_sheet(text)
        self.assertEqual(tool.line_and_column(text, caught.exception.at), (line, column))
        self.assertIn(word, caught.exception.message)


class Errors(unittest.TestCase):
    def test_messages(self) -> None:
        for text, line, column, word in (
            ("a\n \u20ac", 2, 2, "no token"),
            ("a \\", 1, 3, "no token"),
            ("(a", 1, 1, "not closed"),
            ("a )", 1, 3, "closes nothing"),
            ("(\n]", 2, 1, "does not close `(` of line 1, column 1"),
            ('x = "a', 1, 5, "not closed"),
            ('"\\q"', 1, 2, "unknown escape"),
            ('"\\', 1, 2, "unknown escape"),
            (r'"\x80"', 1, 2, "7F"),
            (r'"\xg0"', 1, 2, "two hexadecimal"),
            (r'"\u{D800}"', 1, 2, "scalar"),
            (r'"\u{110000}"', 1, 2, "scalar"),
            (r'"\u{}"', 1, 2, "digits"),
            (r'b"\u{41}"', 1, 3, "not allowed"),
            ('b"\u00e9"', 1, 3, "ASCII"),
            (r'c"\0"', 1, 3, "NUL"),
            ("b''", 1, 1, "one character"),
            ("b'ab'", 1, 1, "not closed"),
            ("b'", 1, 1, "not closed"),
            (r"'\nb'", 1, 1, "not closed"),
            ('"a\rb"', 1, 3, "carriage return"),
            ("0x", 1, 1, "no digits"),
            ("0b12", 1, 4, "not a digit"),
            ("12u8", 1, 3, "suffix"),
            ("1e", 1, 2, "suffix"),
            ('"a"b', 1, 4, "suffix"),
            ("/* a */", 1, 1, "not supported"),
            ('r"a"', 1, 1, "raw strings"),
            ('r#"a"#', 1, 1, "raw strings"),
            ('f"a"', 1, 1, "prefix"),
            ("r#self", 1, 1, "not a name"),
        ):
            with self.subTest(text=text):
                with self.assertRaises(tool.TextError) as caught:
                    tool.make_sheet(text)
                where = tool.line_and_column(text, caught.exception.at)
                self.assertEqual(where, (line, column))
                self.assertIn(word, caught.exception.message)


class Refusals(unittest.TestCase):
    """Damage and the refusal it leads to."""

    text = 'a = (1, "s") \'c\' 2.5 [{}]'

    def refusal(self, *settings: str, cut: int = 0, pad: int = 0) -> tuple[int, int]:
        sheet = tool.damage(tool.make_sheet(self.text), list(settings), cut, pad)
        refused = tool.find_refusal(sheet)
        return (0, 0) if refused is None else (refused.number, refused.record)

    def test_file(self) -> None:
        size = len(tool.make_sheet(self.text))
        self.assertEqual(self.refusal(), (0, 0))
        self.assertEqual(self.refusal(cut=size), (1, 0))
        self.assertEqual(self.refusal(cut=size - 11), (1, 0))
        self.assertEqual(self.refusal("head.N=0"), (2, 0))
        self.assertEqual(self.refusal("head.N=1025"), (2, 0))
        self.assertEqual(self.refusal("head.L1=8193"), (2, 0))
        self.assertEqual(self.refusal("head.L2=0xFFFFFFFF"), (2, 0))
        self.assertEqual(self.refusal("head.L1=3"), (3, 0))
        self.assertEqual(self.refusal(cut=1), (3, 0))
        self.assertEqual(self.refusal(pad=1), (3, 0))

    def test_fields(self) -> None:
        # 0 {  1 a  2 =  3 (  4 'c'  5 2.5  6 [  7 1  8 ,  9 "s"  10 {
        for setting, number in (
            ("1.kind=4", 1), ("0.kind=9", 0), ("0.sub=4", 0), ("2.sub=0x22", 2), ("7.sub=8", 7),
            ("3.sub=4", 3), ("1.b=2", 1), ("1.a=0xFFFFFFFF", 1), ("9.a=1", 9),
            ("4.value=0xD800", 4), ("4.value=0x110000", 4), ("7.mark=2", 7),
            ("7.bits=0x7FF0000000000001", 7), ("5.bits=0x8000000000000000", 5),
        ):
            self.assertEqual(self.refusal(setting), (4, number), setting)

    def test_fields_that_are_not_looked_at(self) -> None:
        settings = ("0.mark=9", "1.value=5", "2.a=99", "3.bits=0xFFFFFFFFFFFFFFFF", "4.a=99",
                    "4.mark=7", "5.mark=7", "7.sub=7", "9.place=77")
        self.assertEqual(self.refusal(*settings), (0, 0))

    def test_order(self) -> None:
        for setting, number in (
            ("0.sub=0", 0), ("0.kind=1", 0), ("0.a=0", 0), ("0.a=2", 0), ("0.b=11", 0),
            ("0.b=0", 1), ("3.a=8", 3), ("3.a=6", 3), ("3.b=2", 6), ("6.b=2", 6),
            ("6.kind=2", 10), ("10.b=1", 10), ("10.a=10", 10),
        ):
            wanted = 4 if setting == "0.kind=1" else 5
            self.assertEqual(self.refusal(setting), (wanted, number), setting)

    def test_depth(self) -> None:
        # A chain of 33 groups below record 0, which the tool makes only by hand.
        records = [tool.Record(tool.GROUP, tool.BRACE, a=n + 1, b=1) for n in range(34)]
        records[-1].b = 0
        refused = tool.find_record_refusal(records, 0, 0)
        self.assertEqual(refused[:2], (6, 33))
        records.pop()
        records[-1].b = 0
        self.assertIsNone(tool.find_record_refusal(records, 0, 0))


class Command(unittest.TestCase):
    def setUp(self) -> None:
        folder = tempfile.TemporaryDirectory()
        self.addCleanup(folder.cleanup)
        self.text = os.path.join(folder.name, "in.txt")
        self.sheet = os.path.join(folder.name, "out.sheet")

    def run_tool(self, *arguments: str) -> tuple[int, str, str]:
        out, err = io.StringIO(), io.StringIO()
        with contextlib.redirect_stdout(out), contextlib.redirect_stderr(err):
            try:
                status = tool.main(list(arguments))
            except SystemExit as ended:
                status = ended.code
        return status, out.getvalue(), err.getvalue()

    def write(self, content: bytes) -> None:
        with open(self.text, "wb") as file:
            file.write(content)

    def test_make_and_show(self) -> None:
        self.write(b"a = (1, 2)")
        self.assertEqual(self.run_tool(self.text, self.sheet), (0, "", ""))
        status, out, _ = self.run_tool("--show", self.sheet)
        self.assertEqual(status, 0)
        self.assertEqual(len(out.splitlines()), 2 + 7 + 1)
        self.assertTrue(out.endswith("lawful\n"))

    def test_show_damaged(self) -> None:
        self.write(b"a = (1, 2)")
        for option, line in (
            (("--set", "3.a=5"), "refused with 5 at record 3"),
            (("--set", "head.N=4000000000"), "refused with 2 at record 0"),
            (("--cut", "230"), "refused with 1 at record 0"),
            (("--cut", "100", "--pad", "3"), "refused with 3 at record 0"),
            (("--set", "1.kind=200", "--set", "4.sub=99"), "refused with 4 at record 1"),
        ):
            self.assertEqual(self.run_tool(self.text, self.sheet, *option)[0], 0)
            status, out, _ = self.run_tool("--show", self.sheet)
            self.assertEqual(status, 0)
            self.assertIn(line, out.splitlines()[-1])

    def test_error_writes_nothing(self) -> None:
        self.write(b"a\n  )")
        status, _, err = self.run_tool(self.text, self.sheet)
        self.assertEqual(status, 1)
        self.assertEqual(err, f"{self.text}:2:3: `)` closes nothing\n")
        self.assertFalse(os.path.exists(self.sheet))

    def test_text_that_is_not_utf8(self) -> None:
        self.write("\u00e9\n\u00e9".encode() + b"\xff")
        status, _, err = self.run_tool(self.text, self.sheet)
        self.assertEqual(status, 1)
        self.assertIn(":2:2: ", err)

    def test_bad_settings(self) -> None:
        self.write(b"a")
        for setting in ("2.a=1", "1.c=1", "head.a=1", "1.sub=256", "1.a=x", "1.a", "1.a=-1"):
            status, _, err = self.run_tool(self.text, self.sheet, "--set", setting)
            self.assertEqual((status, err.count("\n")), (1, 1), setting)
            self.assertFalse(os.path.exists(self.sheet))

    def test_usage(self) -> None:
        self.assertEqual(self.run_tool()[0], 2)
        self.assertEqual(self.run_tool("a")[0], 2)
        self.assertEqual(self.run_tool("--show", "a", "b")[0], 2)
        self.assertEqual(self.run_tool("a", "b", "--cut", "-1")[0], 2)
        self.assertEqual(self.run_tool("--show", self.sheet)[0], 1)
        self.assertEqual(self.run_tool("--help")[0], 0)


if __name__ == "__main__":
    unittest.main()

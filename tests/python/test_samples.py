# SPDX-License-Identifier: MIT OR Apache-2.0
"""Tests of samples: what Python's values and times become, and what the errors say about samples that are wrong. By the C
library, and by the program in its place."""
from __future__ import annotations

import datetime
import functools
import importlib
import math
import time
import unittest
from decimal import ROUND_UP, Context, Decimal, localcontext
from fractions import Fraction
from typing import Any, List, Tuple, cast
from unittest import mock

from cases import WithLibrary, WithProgram
from file_case import LAST, OfFiles

import rrdi
from rrdi.amounts import Millionths
from rrdi.samples import sample_text, sample_words, value_text
from rrdi.times import seconds_of

UTC = datetime.timezone.utc
COUNTERS = ("DS:c:COUNTER:100:U:U", "DS:d:DERIVE:100:U:U", "DS:a:ABSOLUTE:100:U:U", "RRA:LAST:0.5:1:4")


class Float(float):
    """A float of another type, such as numpy's."""


class Index:
    """A whole number that is no int, such as numpy's."""

    def __int__(self) -> int:
        return 7


class Frame(List[str]):
    """A table that gives the names of its columns, as a DataFrame of pandas does."""

    def itertuples(self) -> List[Tuple[int, float]]:
        return [(10, 1.5)]


class Timestamp(datetime.datetime):
    """A time that takes its zone in another way, as that of pandas does."""

    def tz_localize(self, zone: str) -> datetime.datetime:
        return self.replace(tzinfo={"UTC": UTC}[zone])


class Values(unittest.TestCase):
    def check(self, wanted: List[Tuple[Any, str]]) -> None:
        for value, text in wanted:
            self.assertEqual(value_text(value), text, repr(value))

    def test_numbers(self) -> None:
        self.check([(1 / 3, "0.333333"), (0.1 + 0.2, "0.3"), (1e-07, "0"), (-1e-07, "0"), (21.5, "21.5"), (3.0, "3"),
                    (-2.25, "-2.25"), (1e17, "100000000000000000"), (Float(1.5), "1.5"), (0, "0"), (-5, "-5"),
                    (2**64 - 1, "18446744073709551615"), (-2**63, "-9223372036854775808"),
                    (Decimal("1.5"), "1.5"), (Decimal("1E+3"), "1000"), (Decimal("1E-9999999"), "0"),
                    (Decimal(10)**17, "1" + "0" * 17), (Fraction(2, 3), "0.666667"), (Fraction(6, 2), "3"),
                    (Millionths(1_500_000), "1.5"), (Millionths(-1), "-0.000001"),
                    (Millionths(15_000_000), "15"), ("1.500", "1.500"), ("U", "U")])

    def test_half_to_even(self) -> None:
        """A float is what it is in binary: 0.0078125 is half way, 0.0000005 is not."""
        self.check([(0.0078125, "0.007812"), (0.0234375, "0.023438"), (5e-07, "0" if 5e-07 <= Fraction(1, 2_000_000)
                                                                      else "0.000001"),
                    (Decimal("0.0000005"), "0"), (Decimal("0.0000015"), "0.000002"), (Decimal("-0.0000025"), "-0.000002"),
                    (Decimal("0.00000050000000000000000000000000000000000000001"), "0.000001"),
                    (Decimal("999999999999.9999995"), "1000000000000"), (Fraction(1, 2_000_000), "0"),
                    (Fraction(3, 2_000_000), "0.000002"), (Fraction(-3, 2_000_000), "-0.000002")])

    def test_a_program_that_reckons_otherwise(self) -> None:
        """How a program rounds its own decimals, and to how many digits, changes no sample."""
        for own in (Context(prec=3), Context(rounding=ROUND_UP)):
            with localcontext(own):
                self.check([(Decimal("1234.5678"), "1234.5678"), (Decimal("0.0000001"), "0")])

    def test_unknown(self) -> None:
        self.check([(None, "U"), (math.nan, "U"), (Decimal("nan"), "U"), (Decimal("-sNaN"), "U")])

    def test_beyond_the_limits(self) -> None:
        for value in (math.inf, -math.inf, Decimal("inf"), Decimal("-inf")):
            with self.assertRaisesRegex(ValueError, "(?i)^-?inf(inity)?, which is no number; None is unknown$"):
                value_text(value)
        wrong: List[Any] = [1e300, 2.0**64, -1e19, 2**64, -2**63 - 1, 10**5_000,
                            Decimal("1E+9999999"), Decimal(-2**64), Decimal("1e18") + Decimal("0.5"), Fraction(10**40),
                            Fraction(10**18) + Fraction(1, 2), Millionths(10**24 + 1)]
        for value in wrong:
            with self.assertRaises(ValueError) as raised:
                value_text(value)
            text = str(raised.exception)
            self.assertRegex(text, "^.{1,40}; a (GAUGE takes numbers|number with a fraction must be) below")

    def test_limits_of_each_type(self) -> None:
        """The least and the greatest number are taken in each type, and the next ones are not."""
        types: List[Any] = [int, Fraction, Decimal, lambda number: type("Whole", (), {"__index__": lambda self: number})()]
        for of in types:
            self.check([(of(2**64 - 1), "18446744073709551615"), (of(-2**63), "-9223372036854775808"), (of(10**18), "1" + "0" * 18)])
            for wrong in (2**64, -2**63 - 1, -2**64):
                with self.assertRaisesRegex(ValueError, f"^{wrong}; a GAUGE takes numbers below 10\\^18, a COUNTER whole numbers up to 2\\^64 - 1, a DERIVE whole numbers from -2\\^63 on$"):
                    value_text(of(wrong))
        most = "999999999999999999.999999"
        self.check([(Decimal(most), most), (Decimal("-" + most), "-" + most), (Fraction(most), most), (Millionths(10**24 - 1), most), (Millionths(1 - 10**24), "-" + most), (Millionths(10**24), "1" + "0" * 18)])
        for value in (Decimal("1000000000000000000.000001"), Fraction(10**24 + 1, 10**6), Millionths(10**24 + 1), Millionths(-10**24 - 1)):
            with self.assertRaisesRegex(ValueError, r"^-?1000000000000000000\.000001; a number with a fraction must be below 10\^18$"):
                value_text(value)
        for number, shown in ((10**40, "a number of more than 40 digits"), (-10**40, "a number of more than 40 digits"), (10**40 - 1, "9" * 40), (-10**40 + 1, "-" + "9" * 39)):
            with self.assertRaisesRegex(ValueError, f"^{shown}; "):
                value_text(number)

    def test_other_types(self) -> None:
        wrong: List[Any] = [True, False, b"1", {"g": 1}, [1], 1j, datetime.datetime.now(), Index()]
        for value in wrong:
            with self.assertRaises(TypeError):
                value_text(value)

    def test_samples(self) -> None:
        wanted: List[Tuple[Any, List[str]]] = [
            (["1:2", "3:4"], ["1:2", "3:4"]), ([["1:2", "3:4"]], ["1:2", "3:4"]), ([(1, 2), (3, 4)], ["1:2", "3:4"]),
            ([[(1, 2), [3, 4]], "5:6"], ["1:2", "3:4", "5:6"]), ([("N", 0.5, None)], ["N:0.5:U"]), ([], []), ([[]], []),
            ([("10", "0.5")], ["10:0.5"]), ([(1.9, 1)], ["1:1"]), (["N:1:N"], ["N:1:N"])]
        for given, words in wanted:
            self.assertEqual(sample_words(given), words)
        self.assertEqual(sample_words([("N", 1), "N:2"], None, 70), ["70:1", "70:2"])
        self.assertEqual(sample_text((Fraction(9, 2), 1), 1), "4:1")

    def test_times_of_pandas(self) -> None:
        stamp = Timestamp(2020, 9, 13, 12, 26, 40)
        with self.assertRaisesRegex(ValueError, r"write time\.tz_localize\('UTC'\)"):
            seconds_of(stamp)
        self.assertEqual(seconds_of(stamp.tz_localize("UTC")), 1_600_000_000)
        with self.assertRaisesRegex(TypeError, r"not datetime64; write pandas\.Timestamp\(time\)\.tz_localize\('UTC'\)"):
            seconds_of(cast(Any, type("datetime64", (), {})()))


class Number:
    """A number of another library."""

    def __init__(self, number: float):
        self.number = number

    def __float__(self) -> float:
        return self.number


class Whole:
    """A whole number of another library."""

    def __index__(self) -> int:
        return 2**63 + 1


class Forms(unittest.TestCase):
    """The forms in which samples may be given."""

    def test_iterables(self) -> None:
        wanted = ["10:1:2.5", "20:U:3"]
        samples = [(10, 1, 2.5), (20, None, 3)]
        given: List[Any] = [samples, [samples], [iter(samples)], [[10, [1, 2.5]], (20, iter([None, 3]))],
                            zip([10, 20], [(1, 2.5), (None, 3)]), [{10: (1, 2.5), 20: (None, 3)}.items()],
                            [iter([10, 1, 2.5]), (part for part in (20, None, 3))], [(str(10), (1, 2.5)), "20:U:3"]]
        for form in given:
            self.assertEqual(sample_words(form), wanted)

    def test_no_samples(self) -> None:
        wrong: List[Tuple[Any, str]] = [
            ([10, [1.5]], r"not int; write \(10, VALUE\)"), ([True], "not bool$"), ([Frame(["g"])], "itertuples"),
            ([[Frame(["g"])]], "not Frame; pass its itertuples")]
        for samples, text in wrong:
            with self.assertRaisesRegex(TypeError, text):
                sample_words(samples)
        self.assertEqual(sample_words(Frame().itertuples()), ["10:1.5"])

    def test_values_by_name(self) -> None:
        self.assertEqual(sample_words([(10, {"g": 1, "c": 2.5})]), ["--template=g:c", "10:1:2.5"])
        self.assertEqual(sample_words([[(10, {"g": 1}), ("N", {"c": None, "g": 3})], (30, {"c": 4})], None, 25),
                         ["--template=g:c", "10:1:U", "25:3:U", "30:U:4"])
        wrong: List[Tuple[List[Any], str]] = [
            ([(10, {"g": 1}), (20, 2)], "in each sample"), ([(10, {"g": 1}), "20:2"], "in each sample"),
            ([(10, {})], "no values"), ([(10, {5: 1})], "names of sample 1 must be text"),
            ([(10, {"g": True})], "value g of sample 1 is True"), ([{"g": 1}], "not dict"), ([(10, 1, {"g": 1})], "of type dict")]
        for samples, text in wrong:
            with self.assertRaisesRegex(TypeError, text):
                sample_words(samples)
        with self.assertRaisesRegex(TypeError, "need no template"):
            sample_words([(10, {"g": 1})], template="g")
        for name in ("a:b", "", "a b", "x" * 20):
            with self.assertRaisesRegex(rrdi.BadSample, "no such data source: sample 1 has the name"):
                sample_words([(10, {name: 1})])
        with self.assertRaisesRegex(rrdi.BadSample, "bad value: value g of sample 1 is inf"):
            sample_words([(10, {"g": math.inf})])

    def test_which_sample_is_wrong(self) -> None:
        """An error has the number of the sample in its call, whatever forms the others have, the file, and what is wrong."""
        zoned = datetime.datetime(2020, 1, 1)
        wrong: List[Tuple[Any, str, str]] = [
            ((30, 1, math.inf), "bad value", "value 2 of sample 3 is inf, which is no number; None is unknown"), ((-5, 1), "bad time", "sample 3 has the time -5, which is before 1970"), ((math.nan, 1), "bad time", "sample 3: nan is no time"),
            ((zoned, 1), "bad time", "sample 3: the datetime 2020-01-01 00:00:00 has no zone; write datetime.now(timezone.utc), or time.astimezone() for a local time"),
            *(((10**10 * part + more, 1), "bad time", f"sample 3 has the time {10**10 * part + more}; if these are {name}, write {(10**10 * part + more) // of}") for part, more, name, of in (
                (1, 0, "milliseconds", 10**3), (10**3, -1, "milliseconds", 10**3), (10**3, 0, "microseconds", 10**6), (10**6, -1, "microseconds", 10**6), (10**6, 0, "nanoseconds", 10**9), (10**9, -1, "nanoseconds", 10**9))),
            ((10**19, 1), "bad time", "sample 3 has the time 10000000000000000000, which is over 9999999999")]
        for sample, reason, detail in wrong:
            for samples in (["10:1", (20, 1), sample], [["10:1", (20, 1)], sample], [[(10, 1), [20, 1]], [sample]]):
                for path, name in ((None, None), ("f", "f"), (b"f\xff", "f\udcff")):
                    with self.assertRaises(rrdi.BadSample) as raised:
                        sample_words(samples, path)
                    self.assertEqual((raised.exception.reason, raised.exception.path, raised.exception.detail), (reason, name, detail))
        for sample, text in (((20, {"g": True}), "value g of sample 2 is True, which is no number; write 1 or 0"), ((20, {5: 1}), "the names of sample 2 must be text, not int")):
            with self.assertRaisesRegex(TypeError, f"^{text}$"):
                sample_words([(10, {"g": 1}), sample])
        for sample, text in (((20, {"g": math.inf}), "value g of sample 2 is inf, which is no number; None is unknown"), ((20, {"a b": 1}), "sample 2 has the name 'a b'"), ((-1, {"g": 1}), "sample 2 has the time -1, which is before 1970")):
            with self.assertRaises(rrdi.BadSample) as raised:
                sample_words([(10, {"g": 1}), sample], "f")
            self.assertEqual((raised.exception.path, raised.exception.detail), ("f", text))
        self.assertEqual(sample_words([(9_999_999_999, 1), (0, 1)]), ["9999999999:1", "0:1"])

    def test_what_has_no_order(self) -> None:
        unordered: List[Any] = [{10, 5}, frozenset((10, 5)), b"10", bytearray(b"10")]
        for wrong in unordered:
            given: List[List[Any]] = [[wrong], [(10, wrong)], [[wrong, 5]]]
            for samples in given:
                with self.assertRaises(TypeError):
                    sample_words(samples)

    def test_numbers_of_other_libraries(self) -> None:
        self.assertEqual([value_text(value) for value in (Number(1.5), Number(1 / 3), Number(math.nan), Whole())],
                         ["1.5", "0.333333", "U", str(2**63 + 1)])
        for name, text in (("NAType", "U"), ("NaTType", "U")):  # of pandas
            self.assertEqual(value_text(type(name, (), {})()), text)
        for name in ("bool_", "bool"):
            with self.assertRaisesRegex(TypeError, ", which is no number; write 1 or 0$"):
                value_text(type(name, (float,), {})(1))
        for wrong, kind in ((Number(math.inf), ValueError), (object(), TypeError), ([1], TypeError), (1j, TypeError)):
            with self.assertRaises(kind):
                value_text(wrong)

    def test_numpy(self) -> None:
        try:
            numpy: Any = importlib.import_module("numpy")
        except ImportError:
            self.skipTest("not installed: numpy")
        times = numpy.array([10, 20], dtype="int64")
        self.assertEqual(sample_words(zip(times, numpy.array([0.5, math.nan]))), ["10:0.5", "20:U"])
        self.assertEqual(sample_words([numpy.array([[10, 0.5], [20, 1 / 3]])]), ["10:0.5", "20:0.333333"])
        self.assertEqual(sample_words([(times[0], numpy.array([1.5, 2.5], dtype="float32"))]), ["10:1.5:2.5"])
        self.assertEqual([value_text(value) for value in (
            numpy.uint64(2**64 - 1), numpy.float32(0.1), numpy.array(2.5), numpy.int8(-3))],
            [str(2**64 - 1), "0.1", "2.5", "-3"])
        for wrong in (numpy.bool_(True), numpy.array([1.5, 2]), numpy.complex128(1)):
            with self.assertRaises(TypeError):
                value_text(wrong)

    def test_pandas(self) -> None:
        try:
            pandas: Any = importlib.import_module("pandas")
        except ImportError:
            self.skipTest("not installed: pandas")
        frame = pandas.DataFrame({"g": [1.5, None], "c": [1, 2]}, index=pandas.to_datetime([10, 20], unit="s", utc=True))
        self.assertEqual(sample_words(frame.itertuples()), ["10:1.5:1", "20:U:2"])
        self.assertEqual(sample_words(frame.iterrows()), ["10:1.5:1", "20:U:2"])
        self.assertEqual(value_text(pandas.NA), "U")
        with self.assertRaisesRegex(rrdi.BadSample, "has no zone"):
            sample_words(frame.tz_localize(None).itertuples())
        with self.assertRaises(rrdi.BadSample):
            sample_words([(pandas.NaT, 1)])


class Updates(OfFiles):
    def test_values_by_name(self: Any) -> None:
        rrdi.update(self.create(), (1_600_000_010, {"c": 5}), (1_600_000_020, {"g": 1.5, "c": 8}))
        self.assertEqual(rrdi.lastupdate(self.file).values, {"g": 1.5, "c": 8.0})
        with rrdi.Database(self.file) as database:
            database.update((1_600_000_030, {"c": 9}))
        self.assertEqual(rrdi.lastupdate(self.file).values, {"g": None, "c": 9.0})
        with self.assertRaisesRegex(rrdi.Refused, "no such data source: there is no data source x; the file has g, c"):
            rrdi.update(self.file, (1_600_000_040, {"x": 5}))

    def raw(self: Any) -> Any:
        return list(rrdi.lastupdate(self.file, values=Decimal).values.values())

    def test_numbers(self: Any) -> None:
        self.create("DS:g:GAUGE:100:U:U", "RRA:LAST:0.5:1:9")
        given: List[Any] = [1 / 3, 0.1 + 0.2, 1e-07, Decimal("2.0000005"), Fraction(2, 3), Decimal("0.000005"), 7, None,
                            math.nan, "1.25"]
        wanted = ["0.333333", "0.300000", "0.000000", "2.000000", "0.666667", "0.000005", "7.000000", None, None,
                  "1.250000"]
        for number, (value, text) in enumerate(zip(given, wanted), 1):
            rrdi.update(self.file, (1_600_000_000 + number, value))
            self.assertEqual(self.raw(), [None if text is None else Decimal(text)], repr(value))

    def test_counters(self: Any) -> None:
        self.create(*COUNTERS)
        rrdi.update(self.file, (1_600_000_010, 2**64 - 1, -2**63, 0.5))
        self.assertEqual(self.raw(), [2**64 - 1, -2**63, Decimal("0.5")])
        # What was read goes back, also as a float or a number with a point, if it is whole.
        last = rrdi.lastupdate(self.file, values=Decimal).values
        rrdi.update(self.file, [1_600_000_020, *last.values()])
        self.assertEqual(self.raw(), [2**64 - 1, -2**63, Decimal("0.5")])
        rrdi.update(self.file, (1_600_000_030, 5.0, Decimal("-7.00"), 1))
        self.assertEqual(self.raw(), [5, -7, 1])

    def test_times(self: Any) -> None:
        self.create("DS:g:GAUGE:100:U:U", "RRA:LAST:0.5:1:9")
        begin = datetime.datetime.fromtimestamp(1_600_000_010, UTC)
        tick = datetime.timedelta(seconds=10, microseconds=1)
        rrdi.update(self.file, *[(begin + number * tick, number) for number in range(3)])
        self.assertEqual((rrdi.last(self.file), rrdi.info(self.file).undoable), (LAST, 1))
        rrdi.update(self.file, (1_600_000_040.7, 1), "1600000041:2", [(1_600_000_042, 3)], ["1600000043", "4"])
        self.assertEqual(rrdi.last(self.file), 1_600_000_043)
        rrdi.update(self.file, ("N", 1))
        self.assertLessEqual(abs(rrdi.last(self.file) - time.time()), 30)

    def test_fetch(self: Any) -> None:
        begin = datetime.datetime.fromtimestamp(1_600_000_000, UTC)
        found = rrdi.fetch(self.fill(), "AVERAGE", start=begin, end=begin + datetime.timedelta(seconds=29),
                           resolution=datetime.timedelta(seconds=10))
        self.assertEqual(found, rrdi.fetch(self.file, "AVERAGE", start=1_600_000_000, end=1_600_000_029))
        self.assertEqual(rrdi.fetch(self.file, "AVERAGE", start=1_600_000_000.5, end=1_600_000_029.9), found)
        with rrdi.Database(self.file) as database:
            self.assertEqual(database.fetch("AVERAGE", start=begin, end=begin + datetime.timedelta(seconds=29)), found)

    def test_lastupdate_in_a_zone(self: Any) -> None:
        date = rrdi.lastupdate(self.fill(), tz=UTC).date
        self.assertEqual((date, date.utcoffset()), (datetime.datetime.fromtimestamp(LAST, UTC), datetime.timedelta(0)))
        self.assertEqual(rrdi.Database(self.file).lastupdate(tz=UTC, values=Decimal).date, date)
        self.assertIsNone(rrdi.lastupdate(self.file).date.tzinfo)

    def test_nothing_is_sent(self: Any) -> None:
        self.fill()
        naive = datetime.datetime(2020, 9, 13, 12, 27, 20)
        wanted: List[Tuple[Any, str]] = [
            ((1_600_000_040, math.inf, 1), "bad value: value 1 of sample 2 is inf, which is no number; None is unknown"),
            ((1_600_000_040, "12:30"), "bad value: value 1 of sample 2 is '12:30'; a colon would make two values of it"),
            ((1_600_000_040, 1, 10**300), "bad value: value 2 of sample 2 is a number of more than 40 digits; "
             "a GAUGE takes numbers below 10^18, a COUNTER whole numbers up to 2^64 - 1, a DERIVE whole numbers from "
             "-2^63 on"),
            ((1_600_000_040, Decimal("1e18") + Decimal("0.5"), 1), "bad value: value 1 of sample 2 is "
             "1000000000000000000.5; a number with a fraction must be below 10^18"),
            ((naive, 1, 2), "bad time: sample 2: the datetime 2020-09-13 12:27:20 has no zone; write "
             "datetime.now(timezone.utc), or time.astimezone() for a local time"),
            ((1_600_000_040_000, 1, 2), "bad time: sample 2 has the time 1600000040000; if these are milliseconds, write "
             "1600000040"),
            ((-5, 1, 2), "bad time: sample 2 has the time -5, which is before 1970"),
            ((10**40, 1, 2), f"bad time: sample 2 has the time {10**40}, which is over 9999999999"),
            ((math.nan, 1, 2), "bad time: sample 2: nan is no time")]
        by_words = mock.Mock(update_file=None)
        with mock.patch("rrdi.commands.the_library", return_value=by_words), mock.patch("rrdi.memory.the_library"):
            for sample, text in wanted:
                error = self.refuses(rrdi.BadSample, text.partition(":")[0], rrdi.update, self.file, "1600000039:1:2",
                                     sample)
                self.assertEqual(str(error), f"{self.file}: {text}")
                self.assertTrue(isinstance(error, ValueError) and isinstance(error, rrdi.Refused))
                self.refuses(rrdi.BadSample, error.reason, rrdi.Database(self.file).update, "1600000039:1:2", sample)
                self.refuses(rrdi.BadSample, error.reason, rrdi.run, b"", "update", "1600000039:1:2", sample)
            with self.assertRaisesRegex(TypeError, "value 2 of sample 1 is True, which is no number; write 1 or 0"):
                rrdi.update(self.file, (1_600_000_040, 1, True))
            wrong: List[Any] = [(None, 1), (True, 1), (1_600_000_040, b"1"), (1_600_000_040, {}), {"g": 1}, 1.5, None,
                                1_600_000_040, Frame(["g"])]
            for sample in wrong:
                with self.assertRaises(TypeError):
                    rrdi.update(self.file, sample)
            with rrdi.Database(self.file) as database, self.assertRaisesRegex(TypeError, "pass its itertuples"):
                database.update_many(cast(Any, Frame(["g"])))

    def test_in_blocks_and_in_memory(self: Any) -> None:
        self.create()
        with rrdi.Database(self.file) as database:
            database.update((1_600_000_010, 1 / 3, 5), (1_600_000_020, None, 8.0))
            database.update((1_600_000_030, Decimal("0.1")), template="g")
        self.assertEqual(rrdi.fetch(self.file, "AVERAGE", start=1_600_000_000, end=1_600_000_029)[2],
                         [(0.333333, None), (None, 0.3), (0.1, None)])
        data = rrdi.run(None, "create", "--step", "10", "--start", "0", "DS:g:GAUGE:99:U:U", "RRA:LAST:0:1:3").data
        data, _ = rrdi.run(data, "update", (10, 1 / 3), [(20, 2)], "30:3")
        self.assertEqual(rrdi.run(data, "fetch", "LAST", "-s", 0, "-e", 29).output,
                         "time: g\n10: 0.333333\n20: 2.000000\n30: 3.000000\n")


class Errors(OfFiles):
    """The program's text comes first, and then what was wrong."""

    def says(self: Any, kind: type, text: str, *samples: Any, **options: Any) -> None:
        with self.assertRaises(kind) as raised:
            rrdi.update(self.file, *samples, **options)
        self.assertEqual(str(raised.exception), f"{self.file}: {text}")
        self.assertTrue(text.startswith(raised.exception.reason))

    def test_unreadable(self: Any) -> None:
        self.fill()
        numbers, tool = "a value has at most six decimals and no exponent", "or run rrdi-rrdtool --rrdi"
        for sample, text in (
                ("1,5", "its value 2 is '1,5'; write '1.5', with a point"),
                ("1e3", f"its value 2 is '1e3', with an exponent; {numbers}; write 1000, {tool}"),
                ("-1.5E+3", f"its value 2 is '-1.5E+3', with an exponent; {numbers}; write -1500, {tool}"),
                ("1e-07", f"its value 2 is '1e-07', with an exponent; {numbers}"),
                ("0.3333333", f"its value 2 is '0.3333333', with more than six decimals; {numbers}"),
                ("", "its value 2 is empty; U is unknown"), ("nan", "its value 2 is 'nan'; U is unknown"),
                ("None", "its value 2 is 'None'; U is unknown"),
                ("1" * 21, f"its value 2 is '{'1' * 21}', with more than 20 digits"),
                ("1" * 60, f"its value 2 is '{'1' * 20}'.. (60 characters), with more than 20 digits"),
                ("+5", f"its value 2 is '+5'; a value is a number, such as 21.5 or -3, or U for unknown; write 5, {tool}"),
                ("inf", "its value 2 is 'inf'; a value is a number, such as 21.5 or -3, or U for unknown"),
                *((wrong, f"its value 2 is {wrong!r}; a value is a number, such as 21.5 or -3, or U for unknown")
                  for wrong in ("-,5", "1,", "+1,5", "1,1234567", f"{'1' * 21},5", "1,5,6", "1,5e3", "\u0663,\u0665"))):
            self.says(rrdi.Unreadable, f"unreadable sample 2: {text}", "1600000040:1:2", f"1600000050:1:{sample}")
        self.says(rrdi.Unreadable, "unreadable sample 1: 'x' has no value; write TIME:VALUE", "x")
        self.says(rrdi.Unreadable, "unreadable sample 1: '5' has no value; write TIME:VALUE", "5", template="g")
        for moment in ("1600000040.5", "", "-5", "now"):
            sample = f"{moment}:1:2"
            if moment != "-5":
                self.says(rrdi.Unreadable, f"unreadable sample 1: its time is {moment!r}, not whole seconds since 1970 "
                                           f"or N{f'; write N, {tool}' if moment == 'now' else ''}", sample)
        self.says(rrdi.Unreadable, "unreadable sample 1: its value 1 is '1,5'; write '1.5', with a point",
                  (1_600_000_040, "1,5", 2))
        self.says(rrdi.Unreadable, f"unreadable template: it is '{'x' * 20}', not names of at most 19 characters with "
                                "colons between them",
                  "1600000040:1", template="x" * 20)

    def test_refused(self: Any) -> None:
        self.fill()
        self.says(rrdi.Refused, "bad time: sample 1 has the time 1600000040000; if these are milliseconds, write "
                                "1600000040", "1600000040000:1:2")
        self.says(rrdi.Refused, "bad time: sample 2 has the time 1600000050000000; if these are microseconds, write "
                                "1600000050", "1600000040:1:2", "1600000050000000:1:2")
        self.says(rrdi.Refused, "wrong number of values: sample 1 has 1 value, 2 are wanted: g, c", "1600000040:1")
        self.says(rrdi.Refused, "wrong number of values: sample 2 has 3 values, 2 are wanted: g, c", (1_600_000_040, 1, 2),
                  "1600000050:1:2:3")
        self.says(rrdi.Refused, "wrong number of values: sample 1 has 2 values, 1 is wanted: c", "1600000040:1:2",
                  template="c")
        self.says(rrdi.Refused, "wrong number of values: sample 1 has 2 values, 1 is wanted: c", "-t", "c",
                  "1600000040:1:2")
        self.says(rrdi.Refused, "not later than 1600000030: 1600000030 is not later than the last update, 1600000030; "
                                "the next sample may be at 1600000031 or later", "1600000030:1:2")
        self.says(rrdi.Refused, "not later than 1600000040: sample 3 has the time 1600000039, before that of sample 2, "
                                "1600000040; sort them by time", "1600000031:1:2", "1600000040:1:2", "1600000039:1:2")
        self.says(rrdi.Refused, "no such data source: there is no data source x; the file has g, c", "1600000040:1", template="x")

    def test_words_of_other_commands(self: Any) -> None:
        """The texts are those of the program's second line."""
        file, archive, fetch = self.fill(), "RRA:MAX:0:1:3", cast(Any, rrdi.fetch)
        source = "DS:g:GAUGE:9:U:U"
        definition = "not DS:name:GAUGE|COUNTER|DERIVE|ABSOLUTE:heartbeat:min:max or RRA:AVERAGE|MIN|MAX|LAST:xff:steps:rows"
        calls: List[Tuple[str, Any]] = [
            ("unreadable function: it is 'mean', not AVERAGE, MIN, MAX or LAST", lambda: fetch(file, "mean", "-s", "5")),
            ("unreadable start: it is 'x', not whole seconds since 1970; rrdi-rrdtool --rrdi takes RRDtool's times",
             lambda: fetch(file, "MAX", start="x")),
            ("unreadable resolution: it is '5m', not a whole number of seconds; write 300, or run rrdi-rrdtool --rrdi",
             lambda: fetch(file, "MAX", resolution="5m")),
            (f"unreadable definition 2: it is 'RRA:x', {definition}",
             lambda: rrdi.create(file, "-s", 9, "DS:g:GAUGE:9:U:U", "RRA:x", start=5, overwrite=True)),
            ("unreadable journal: it is 'x', not a whole number", lambda: rrdi.create(file, "--journal", "x", archive, overwrite=True)),
            ("bad name: definition 1 has the name 'a-b'; a name has 1 to 19 characters of a-z A-Z 0-9 _",
             lambda: rrdi.create(file, "DS:a-b:GAUGE:9:U:U", archive, overwrite=True))]
        for words, text in (
                (["-s0", source, archive], "bad step: --step is '0', not 1 to 1000000 seconds"),
                (["--journal", "0", source, archive], "bad journal depth: --journal is '0', not 1 to 100000 changes"),
                ([source, "DS:h:GAUGE:0:U:U", archive], "bad heartbeat: the heartbeat of h is '0', not 1 to 9999999999 seconds"),
                (["DS:g:GAUGE:9:5:4.5", archive], "bad bounds: the minimum of g is '5', above its maximum, '4.5'"),
                (["DS:g:GAUGE:9:U:18446744073709551616", archive],
                 "bad bounds: the maximum of g is '18446744073709551616', not at most 2^64 - 1 in size"),
                ([source, "RRA:MAX:1:1:3"], "bad xff: the xff of definition 2 is '1', not 0 to 0.999999"),
                ([source, "RRA:MAX:0:0:3"], "bad steps: the number of steps of definition 2 is '0', not 1 to 1000000"),
                ([archive, source, "RRA:MAX:0:1:1000001"], "bad rows: the number of rows of definition 3 is '1000001', not 1 to 1000000"),
                ([source, source, archive], "double name: two data sources would have the name g"),
                ([source, *[archive] * 129], "too large: there are 129 archives, and at most 128 are allowed"),
                ([*(f"DS:s{at}:GAUGE:9:U:U" for at in range(9)), "RRA:MAX:0:1:900000"],
                 "too large: data sources times rows are 9 times 900000, and at most 8000000")):
            calls.append((text, functools.partial(rrdi.create, file, *words, overwrite=True)))
        for text, call in calls:
            with self.assertRaises(rrdi.Error) as raised:
                call()
            self.assertEqual(str(raised.exception), f"{file}: {text}")

    def test_times_of_other_commands(self: Any) -> None:
        file, late = self.fill(), 1_600_000_040_000
        detail = "is 1600000040000; if these are milliseconds, write 1600000040"
        calls: List[Tuple[str, Any]] = [
            ("bad time: --start", lambda: rrdi.fetch(file, "MAX", start=late)),
            ("bad time: --end", lambda: rrdi.fetch(file, "MAX", "-e", late, start=1_600_000_000)),
            ("bad time: --end", lambda: rrdi.Database(file).fetch("MAX", end=late)),
            ("bad start: --start", lambda: rrdi.create(file, "DS:g:GAUGE:9:U:U", "RRA:MAX:0:1:3", start=late,
                                                       overwrite=True))]
        for text, call in calls:
            with self.assertRaises(rrdi.Refused) as raised:
                call()
            self.assertEqual(str(raised.exception), f"{file}: {text} {detail}")
        database = rrdi.Database(file)
        database.update("1600000040:1:2")
        with self.assertRaises(rrdi.Refused) as raised:
            database.fetch("MAX", end=late)
        self.assertEqual(str(raised.exception), f"{file}: bad time: --end {detail}")
        self.refuses(rrdi.Refused, "bad span", rrdi.fetch, file, "MAX", start=20, end=10)

    def test_bad_values(self: Any) -> None:
        self.create("DS:g:GAUGE:100:U:U", *COUNTERS)
        whole = "whole numbers without a point from"
        for sample, text in ((("1000000000000000000", "1", "1", "1"),
                              "value 1 of sample 1 is 1000000000000000000; g is of type GAUGE, which takes numbers below "
                              "10^18"),
                             (("1", "5.5", "1", "1"),
                              f"value 2 of sample 1 is 5.5; c is of type COUNTER, which takes {whole} 0 to 2^64 - 1"),
                             ((1, -1, 1, 1),
                              f"value 2 of sample 1 is -1; c is of type COUNTER, which takes {whole} 0 to 2^64 - 1"),
                             ((1, 1, 2**63, 1), "value 3 of sample 1 is 9223372036854775808; d is of type DERIVE, which "
                                                f"takes {whole} -2^63 to 2^63 - 1"),
                             ((None, None, None, 10**18), "value 4 of sample 1 is 1000000000000000000; a is of type "
                                                          "ABSOLUTE, which takes numbers below 10^18")):
            self.says(rrdi.Refused, f"bad value: {text}", (1_600_000_040, *sample))
        self.says(rrdi.Refused, f"bad value: value 2 of sample 2 is 0.5; c is of type COUNTER, which takes {whole} 0 to "
                                "2^64 - 1", (1_600_000_040, 1, 2), (1_600_000_041, 1, 0.5), template="g:c")
        self.says(rrdi.Refused, f"bad value: value 1 of sample 1 is 0.5; c is of type COUNTER, which takes {whole} 0 to "
                                "2^64 - 1", (1_600_000_040, 0.5, 0.5), template="c:g")

    def test_of_lines_and_in_memory(self: Any) -> None:
        with self.assertRaises(rrdi.RefusedLines) as raised:
            with rrdi.Database(self.create(), collect=True) as database:
                database.update("1600000010:1:1,5")
        self.assertEqual(str(raised.exception), f"{self.file}: line 1, update 1600000010:1:1,5: unreadable sample 1: its "
                                                "value 2 is '1,5'; write '1.5', with a point")
        self.assertEqual(raised.exception.lines[0].reason, "unreadable sample 1")
        data = rrdi.run(None, "create", "--start", "0", "DS:g:GAUGE:99:U:U", "RRA:LAST:0:1:3").data
        for sample, text in (("10:1:2", "wrong number of values: sample 1 has 2 values, 1 is wanted: g"),
                             ("10:1e3", "unreadable sample 1: its value 1 is '1e3', with an exponent; a value has at most six "
                                        "decimals and no exponent; write 1000, or run rrdi-rrdtool --rrdi")):
            with self.assertRaises(rrdi.Error) as failed:
                rrdi.run(data, "update", sample)
            self.assertEqual(str(failed.exception), text)


class UpdatesByProgram(WithProgram, Updates, unittest.TestCase):
    pass


class ErrorsByProgram(WithProgram, Errors, unittest.TestCase):
    pass


class UpdatesByLibrary(WithLibrary, Updates, unittest.TestCase):
    pass


class ErrorsByLibrary(WithLibrary, Errors, unittest.TestCase):
    pass

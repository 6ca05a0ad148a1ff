# SPDX-License-Identifier: MIT OR Apache-2.0
"""The types of results. No program and no library is needed: the outputs of the commands are written here."""
from __future__ import annotations

import math
import pickle
import unittest
from decimal import Decimal

import doubles as doubles

import rrdi
from rrdi.printed import printed_rows
from rrdi.results import table

ROWS = "time: g c\n10: 1.500000 nan\n20: U 0.300000\n30: -2.250000 0.700000\n"


class Tables(unittest.TestCase):
    def setUp(self) -> None:
        self.table = table(printed_rows(ROWS), 10, float)

    def test_a_tuple(self) -> None:
        """It is what Python's rrdtool returns, with names."""
        span, names, rows = self.table
        self.assertEqual((span, names, rows), ((0, 30, 10), ("g", "c"), [(1.5, None), (None, 0.3), (-2.25, 0.7)]))
        self.assertEqual(self.table, (span, names, rows))
        found = self.table
        self.assertEqual(((found.start, found.end, found.step), found.names, found.rows), (span, names, rows))
        self.assertEqual(repr(found), "Table(start=0, end=30, step=10, names=('g', 'c'), "
                                      "rows=[(1.5, None), (None, 0.3), (-2.25, 0.7)])")
        exact = table(printed_rows(ROWS), 10, Decimal)
        self.assertEqual(exact.rows[1:], [(None, Decimal("0.3")), (Decimal("-2.25"), Decimal("0.7"))])
        with self.assertRaisesRegex(TypeError, "^values must be float or Decimal, not <class 'int'>$"):
            table(printed_rows(ROWS), 10, int)
        again = pickle.loads(pickle.dumps(found))
        self.assertEqual((type(again), again), (rrdi.Table, found))

    def test_records(self) -> None:
        self.assertEqual(list(self.table.times), [10, 20, 30])
        self.assertEqual([(record.time, record.values["g"], record.values["c"]) for record in self.table.records()],
                         [(10, 1.5, None), (20, None, 0.3), (30, -2.25, 0.7)])
        time, values = next(self.table.records())
        self.assertEqual((time, values), (10, {"g": 1.5, "c": None}))

    def test_columns(self) -> None:
        """Columns are floats, with nan for unknown values, whatever the values are."""
        for columns in (self.table.columns(), table(printed_rows(ROWS), 10, Decimal).columns()):
            self.assertEqual(list(columns), ["g", "c"])
            self.assertTrue(math.isnan(columns["g"][1]) and math.isnan(columns["c"][0]))
            self.assertEqual(([columns["g"][0], columns["g"][2]], columns["c"][1:]), ([1.5, -2.25], [0.3, 0.7]))
            self.assertEqual({type(value) for column in columns.values() for value in column}, {float})
        for values in (float, Decimal):  # 0 is known
            self.assertEqual(table(printed_rows("time: g\n10: 0.000000\n20: 1.000000\n"), 10, values).columns(), {"g": [0.0, 1.0]})


if __name__ == "__main__":
    unittest.main()

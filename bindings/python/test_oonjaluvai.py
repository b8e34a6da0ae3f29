"""Tries each promise of oonjaluvai.py:  HARBOUR_LIBRARY=path/of/libharbour.so.2 python3 -B -m unittest -q"""

import _ctypes
import copy
import ctypes
import doctest
import os
import pickle
import subprocess
import sys
import tempfile
import threading
import unittest
from unittest import mock

import oonjaluvai
from oonjaluvai import AMPLE, BM, BT, CBJ, FC, FC_CBJ, Decided, Refused, Tables, Undecided, lawful_file

METHODS = (BT, CBJ, BM, FC, FC_CBJ)
APART = (2, 1)  # two slots each, and never the same one

A = Tables(())
B = Tables((1,))
C = Tables((2, 2), [(0, 1)], [APART])
D = Tables((2, 2, 2), [(0, 1), (0, 2), (1, 2)], [APART] * 3)
E = Tables((2, 2, 1), [(0, 2)], [(0, 1)])
F = Tables((2, 2, 1), [(0, 2)], [(0, 0)])
G = Tables((2, 2, 2, 2), [(1, 2), (1, 3), (2, 3)], [APART] * 3)

# The plan, and checks and trials by BT, CBJ, BM, FC and FC-CBJ.
CASES = {
    "A": (A, (), ((0, 0), (0, 0), (0, 0), (0, 0), (0, 0))),
    "B": (B, (0,), ((0, 1), (0, 1), (0, 1), (0, 1), (0, 1))),
    "C": (C, (0, 1), ((2, 3), (2, 3), (2, 3), (2, 2), (2, 2))),
    "D": (D, None, ((10, 10), (10, 10), (10, 10), (10, 4), (10, 4))),
    "E": (E, (1, 0, 0), ((3, 8), (2, 6), (2, 8), (2, 4), (2, 4))),
    "F": (F, None, ((4, 10), (2, 6), (2, 10), (2, 2), (2, 2))),
    "G": (G, None, ((20, 22), (10, 11), (20, 22), (20, 10), (10, 5))),
}


def each_run():
    for name, (tables, plan, counts) in CASES.items():
        for method, (checks, trials) in zip(METHODS, counts):
            yield f"case {name}, method {method}", tables, method, Decided(plan, checks, trials)


def queens(boats):
    """A board with a queen in each column: a harbour that takes some time."""
    pairs = [(low, high) for low in range(boats) for high in range(low + 1, boats)]
    rows = [[sum(1 << b for b in range(boats) if b != a and abs(a - b) != high - low) for a in range(boats)]
            for low, high in pairs]
    return Tables([boats] * boats, pairs, rows)


def file_of(sizes, pairs=(), count=None):
    """A file of any bytes: each pair is its boats and its words; the count is right unless it is given."""
    records = [b"PR" + bytes((lower, higher)) + b"".join(word.to_bytes(8, "little") for word in words)
               for lower, higher, words in pairs]
    return (b"SZ" + bytes((len(sizes),)) + bytes(sizes) + b"".join(records) + b"ED"
            + (len(records) if count is None else count).to_bytes(2, "little"))


class Trying(unittest.TestCase):
    def refused(self, number, place, call, *given):
        with self.assertRaises(Refused) as raised:
            call(*given)
        self.assertEqual((raised.exception.number, raised.exception.place), (number, place))

    def undecided(self, allowance, checks, trials, tables, *given):
        with self.assertRaises(Undecided) as raised:
            tables.run(*given)
        seen = raised.exception
        self.assertEqual((seen.allowance, seen.checks, seen.trials), (allowance, checks, trials))

    def no_fit(self, named, call, *given):
        """A ValueError of the module's own, which names what does not fit."""
        with self.assertRaisesRegex(ValueError, named) as raised:
            call(*given)
        self.assertNotIsInstance(raised.exception, Refused)


class Runs(Trying):
    def test_harbour_cases(self):
        for name, tables, method, due in each_run():
            with self.subTest(name):
                self.assertEqual(tables.run(method), due)

    def test_constants(self):
        self.assertEqual((METHODS, AMPLE), ((1, 2, 3, 4, 5), 18446744073709551615))

    def test_forward_checking_with_backjumping_and_ample_unless_said_otherwise(self):
        self.assertEqual(G.run(), (None, 10, 5))

    def test_exact_fit_decides(self):
        for name, tables, method, due in each_run():
            with self.subTest(name):
                self.assertEqual(tables.run(method, due.checks, due.trials), due)

    def test_one_check_fewer_is_undecided(self):
        for name, tables, method, due in each_run():
            if due.checks > 0:
                with self.subTest(name), self.assertRaises(Undecided) as raised:
                    tables.run(method, checks=due.checks - 1)
                self.assertEqual((raised.exception.allowance, raised.exception.checks), ("checks", due.checks - 1))

    def test_one_trial_fewer_is_undecided(self):
        for name, tables, method, due in each_run():
            if due.trials > 0:
                with self.subTest(name), self.assertRaises(Undecided) as raised:
                    tables.run(method, trials=due.trials - 1)
                self.assertEqual((raised.exception.allowance, raised.exception.trials), ("trials", due.trials - 1))

    def test_undecided_cases(self):
        self.undecided("checks", 9, 10, D, BT, 9)
        self.undecided("trials", 9, 9, D, BT, AMPLE, 9)
        self.undecided("trials", 9, 9, D, BT, 9, 9)
        self.undecided("trials", 2, 6, E, BT, 2, 6)
        self.assertEqual(D.run(BT, 10, 10), (None, 10, 10))
        self.assertEqual(E.run(CBJ, 2, 6), ((1, 0, 0), 2, 6))

    def test_an_allowance_of_0_is_0(self):
        for method in METHODS:
            self.assertEqual(A.run(method, 0, 0), ((), 0, 0))
            self.assertEqual(B.run(method, 0), ((0,), 0, 1))
            self.undecided("trials", 0, 0, D, method, 0, 0)
            self.undecided("trials", 0, 0, D, method, AMPLE, 0)
            self.undecided("checks", 0, 3 if method in (BT, CBJ, BM) else 1, E, method, 0)

    def test_no_such_method(self):
        for method in (0, 6, 7, AMPLE):
            self.refused(1, 0, D.run, method)

    def test_the_method_comes_before_the_allowances(self):
        self.refused(1, 0, D.run, 0, 0, 0)

    def test_decided_does_not_change(self):
        decided = C.run()
        self.assertEqual(decided._fields, ("plan", "checks", "trials"))
        self.assertIs(type(decided.plan), tuple)
        with self.assertRaises(AttributeError):
            decided.plan = None

    def test_64_boats_of_64_slots(self):
        self.assertEqual(Tables([64] * 64).run(BT), ((0,) * 64, 0, 64))

    def test_the_last_bit_of_a_row(self):
        self.assertEqual(Tables((1, 64), [(0, 1)], [[1 << 63]]).run(BT), ((0, 63), 64, 65))


class Questions(Trying):
    def test_lawful(self):
        for tables, plan in ((A, ()), (B, (0,)), (C, (0, 1)), (C, (1, 0)), (E, (1, 1, 0))):
            self.assertIs(tables.is_lawful(plan), True)
            self.assertIsNone(tables.first_broken(plan))

    def test_broken(self):
        for plan, pair in (((0, 0, 0), 0), ((0, 0, 1), 0), ((0, 1, 0), 1), ((0, 1, 1), 2)):
            self.assertIs(D.is_lawful(plan), False)
            self.assertEqual(D.first_broken(plan), pair)

    def test_a_plan_of_another_length(self):
        for plan in ((), (0,), (0, 1, 0), (0, 5, 0)):
            self.refused(10, 0, C.is_lawful, plan)
            self.refused(10, 0, C.first_broken, plan)
        self.refused(10, 0, A.is_lawful, (0,))

    def test_a_slot_that_its_boat_does_not_have(self):
        for plan, boat in (((2, 0, 0), 0), ((0, 0, 1), 2), ((0, 255, 1), 1)):
            self.refused(11, boat, E.is_lawful, plan)
            self.refused(11, boat, E.first_broken, plan)

    def test_no_plan_is_no_given_plan(self):
        for ask in (D.is_lawful, D.first_broken):
            self.assertRaises(TypeError, ask, D.run().plan)

    def test_rows(self):
        tables = Tables((1, 2, 3), [(0, 2), (1, 2)], [[5], [6, 7]])
        self.assertEqual(tables.rows_of(0, 2), (5,))
        self.assertEqual(tables.rows_of(1, 2), (6, 7))
        self.assertIs(type(tables.rows_of(1, 2)), tuple)

    def test_rows_of_no_pair(self):
        for lower, higher in ((0, 1), (2, 0), (0, 0), (0, 3), (0, 258), (AMPLE, 2), (0, AMPLE), (AMPLE, AMPLE)):
            self.assertEqual(E.rows_of(lower, higher), ())
        self.assertEqual(A.rows_of(0, 1), ())


class Refusals(Trying):
    def test_boats(self):
        Tables([1] * 64)
        self.refused(2, 0, Tables, [1] * 65)
        self.refused(2, 0, Tables, [0] * 300)

    def test_sizes(self):
        Tables((64,))
        for sizes, boat in (((65,), 0), ((0,), 0), ((1, 255), 1), ((1, 64, 0, 65, 0), 2)):
            self.refused(3, boat, Tables, sizes)

    def test_too_many_pairs(self):
        pairs = [(low, high) for low in range(64) for high in range(low + 1, 64)]
        rows = [[1]] * 2016
        self.assertEqual(Tables([1] * 64, pairs, rows).run(BT).checks, 2016)
        self.refused(4, 0, Tables, [1] * 64, pairs + [(0, 0)], rows)

    def test_pairs(self):
        for pairs, number, byte in (
                ([(3, 0)], 51, 0), ([(0, 3)], 51, 1), ([(9, 9)], 51, 0), ([(0, 1), (0, 3)], 51, 3),
                ([(0, 1), (0, 2), (2, 255)], 51, 5), ([(1, 2), (0, 9)], 51, 3),
                ([(1, 1)], 52, 1), ([(0, 1), (0, 0)], 52, 3), ([(1, 2), (0, 0)], 52, 3),
                ([(1, 0)], 53, 0), ([(1, 2), (1, 0)], 53, 2), ([(1, 0), (9, 9)], 53, 0),
                ([(0, 1), (0, 1)], 54, 2), ([(0, 2), (0, 1)], 54, 2), ([(1, 2), (0, 1), (2, 1)], 54, 2)):
            self.refused(number, byte, Tables, (2, 2, 2), pairs, [APART] * len(pairs))

    def test_too_few_or_too_many_rows(self):
        for rows in ([], [[]], [[1]], [[1, 1, 1]], [[1, 1], []], [[1, 1], [1, 1]], [[1], [1]], [[], [1, 1]]):
            self.refused(6, 0, Tables, (2, 2), [(0, 1)], rows)
        self.refused(6, 0, Tables, (2, 2), [], [[]])
        self.refused(6, 0, Tables, (), [], [[1]])

    def test_a_row_too_many_here_and_one_too_few_there(self):
        sizes, pairs = (2, 2, 2), [(0, 1), (0, 2)]
        Tables(sizes, pairs, [[1, 1], [1, 1]])
        for rows in ([[1, 1, 1], [1]], [[1], [1, 1, 1]], [[1, 1, 1, 1], []], [[1, 1, 1, 1]], [[1, 1], [1], [1]]):
            self.refused(6, 0, Tables, sizes, pairs, rows)

    def test_row_bits(self):
        pairs = [(0, 1), (0, 2)]
        for rows, word in (([[4, 0], [0, 0]], 0), ([[0, 0], [0, 2]], 3), ([[3, 3], [2, 2]], 2),
                           ([[0, 1 << 63], [2, 2]], 1)):
            self.refused(7, word, Tables, (2, 2, 1), pairs, rows)

    def test_the_first_test_that_applies_speaks(self):
        shifted, bit = [[1, 1, 1], [1]], 1 << 63
        self.refused(2, 0, Tables, [0] * 65, [(1, 0)], [[1]])
        self.refused(3, 2, Tables, (2, 2, 0), [(0, 1), (0, 2)], shifted)
        self.refused(3, 1, Tables, (2, 0), [(0, 1)] * 2017, [])
        self.refused(4, 0, Tables, (2, 2), [(1, 0)] * 2017, [])
        self.refused(54, 2, Tables, (2, 2, 2), [(0, 2), (0, 1)], shifted)
        self.refused(53, 0, Tables, (2, 2), [(1, 0)], [[bit, bit, bit]])
        self.refused(52, 1, Tables, (2, 2), [(1, 1)], [[bit]])
        self.refused(51, 0, Tables, (2, 2), [(7, 8)], [[]])
        self.refused(6, 0, Tables, (2, 2), [(0, 1)], [[bit]])
        self.refused(6, 0, Tables, (2, 2, 2), [(0, 1), (0, 2)], [[bit, bit, bit], [bit]])

    def test_refused_tables_leave_an_object_as_it_was(self):
        tables = Tables((2, 2), [(0, 1)], [APART])
        self.refused(3, 0, tables.__init__, (0,))
        self.assertEqual(tables.run(), ((0, 1), 2, 2))


class Files(Trying):
    TWO = bytes.fromhex("53 5A 02 01 01 50 52 00 01 01 00 00 00 00 00 00 00 45 44 01 00")

    def refused_file(self, number, place, data, plan=()):
        """By both, whatever the plan."""
        self.refused(number, place, Tables.from_bytes, data)
        self.refused(number, place, lawful_file, data, plan)

    def test_two_boats_of_size_1(self):
        tables = Tables((1, 1), [(0, 1)], [[1]])
        self.assertEqual(tables.to_bytes(), self.TWO)
        self.assertIs(type(tables.to_bytes()), bytes)
        self.assertEqual(Tables.from_bytes(self.TWO).run(BT), ((0, 0), 1, 2))
        self.assertIs(lawful_file(self.TWO, (0, 0)), True)

    def test_each_case_is_the_same_again(self):
        for name, (tables, _, _) in CASES.items():
            with self.subTest(name):
                file = tables.to_bytes()
                again = Tables.from_bytes(file)
                self.assertEqual(again.to_bytes(), file)
                self.assertEqual([bytes(part) for part in again._parts[::2]],
                                 [bytes(part) for part in tables._parts[::2]])
                self.assertEqual(again._parts[1::2], tables._parts[1::2])
        self.assertEqual(len({tables.to_bytes() for tables, _, _ in CASES.values()}), len(CASES))

    def test_what_is_read_is_run_and_asked(self):
        for name, tables, method, due in each_run():
            with self.subTest(name):
                self.assertEqual(Tables.from_bytes(tables.to_bytes()).run(method), due)
        again = Tables.from_bytes(Tables((1, 2, 3), [(0, 2), (1, 2)], [[5], [6, 7]]).to_bytes())
        self.assertEqual((again.rows_of(0, 2), again.rows_of(1, 2), again.rows_of(0, 1)), ((5,), (6, 7), ()))

    def test_low_bytes_come_first(self):
        row = 0x0102030405060708
        file = Tables((1, 64), [(0, 1)], [[row]]).to_bytes()
        self.assertEqual(file, b"SZ\2\1\x40PR\0\1\x08\7\6\5\4\3\2\1ED\1\0")
        self.assertEqual(Tables.from_bytes(file).rows_of(0, 1), (row,))

    def test_the_largest(self):
        pairs = [(low, high) for low in range(64) for high in range(low + 1, 64)]
        rows = [[AMPLE - low * high - slot for slot in range(64)] for low, high in pairs]
        file = Tables([64] * 64, pairs, rows).to_bytes()
        self.assertEqual(len(file), 1040327)
        self.assertEqual(file, file_of([64] * 64, [pair + (each,) for pair, each in zip(pairs, rows)]))
        self.assertEqual(Tables.from_bytes(file).to_bytes(), file)

    def test_whatever_is_bytes(self):
        twice = bytes(byte for byte in self.TWO for _ in range(2))
        for data in (self.TWO, bytearray(self.TWO), memoryview(self.TWO), memoryview(twice)[::2],
                     (ctypes.c_uint8 * len(self.TWO))(*self.TWO)):
            self.assertEqual(Tables.from_bytes(data).to_bytes(), self.TWO)
            self.assertIs(lawful_file(data, (0, 0)), True)

    def test_what_is_no_bytes(self):
        for data in (self.TWO.hex(), list(self.TWO), len(self.TWO), None, True):
            self.assertRaises(TypeError, Tables.from_bytes, data)
            self.assertRaises(TypeError, lawful_file, data, ())

    def test_later_changes_of_the_bytes_have_no_effect(self):
        data = bytearray(self.TWO)
        tables = Tables.from_bytes(data)
        data[:] = bytes(len(data))
        self.assertEqual(tables.to_bytes(), self.TWO)

    def test_a_class_of_ones_own(self):
        class Own(Tables):
            pass
        self.assertIs(type(Own.from_bytes(self.TWO)), Own)

    def test_lawful(self):
        for tables, plan in ((A, ()), (B, (0,)), (C, (0, 1)), (C, (1, 0)), (E, (1, 1, 0))):
            self.assertIs(lawful_file(tables.to_bytes(), iter(plan)), True)
        for plan in ((0, 0, 0), (0, 0, 1), (0, 1, 0), (0, 1, 1)):
            self.assertIs(lawful_file(D.to_bytes(), plan), False)

    def test_the_plan_is_refused_after_the_file(self):
        for plan in ((), (0,), (0, 1, 0), (0, 5, 0)):
            self.refused(10, 0, lawful_file, C.to_bytes(), plan)
        for plan, boat in (((2, 0, 0), 0), ((0, 0, 1), 2), ((0, 255, 1), 1)):
            self.refused(11, boat, lawful_file, E.to_bytes(), plan)
        self.refused_file(25, 21, self.TWO + b"x", (9,))
        self.refused_file(7, 0, file_of((1, 1), [(0, 1, [2])]), (9,))
        self.no_fit("slot of boat 1 ", lawful_file, C.to_bytes(), (0, 256))
        self.assertRaises(TypeError, lawful_file, D.to_bytes(), D.run().plan)

    def test_each_cut_is_22_at_its_length(self):
        for tables in (A, E, G):
            file = tables.to_bytes()
            for length in range(len(file)):
                self.refused_file(22, length, file[:length])

    def test_marks(self):
        for data, place in ((b"XY", 0), (b"PR\0", 0), (b"ED\0\0", 0), (b"sz\0ED\0\0", 0), (b"ZS", 0),
                            (b"SZ\1\1SZ\1\1ED\0\0", 4), (b"SZ\0XX", 3), (b"SZ\0WL", 3), (b"SZ\0OP", 3),
                            (self.TWO.replace(b"ED", b"DE"), 17), (self.TWO.replace(b"PR", b"PD"), 5)):
            self.refused_file(21, place, data)

    def test_a_mark_that_is_cut_is_22(self):
        for data in (b"", b"X", b"SZ\0X", self.TWO[:17] + b"X"):
            self.refused_file(22, len(data), data)

    def test_a_lower_boat_that_is_not_there(self):
        self.refused_file(23, 5, b"SZ\0PR\0")
        self.refused_file(23, 7, b"SZ\2\1\1PR\x09")
        self.refused_file(23, 7, b"SZ\2\1\1PR\2\0")
        self.refused_file(23, 19, self.TWO[:17] + b"PR\xff")

    def test_the_count(self):
        for count in (0, 2, 256, 257, 65535):
            self.refused_file(24, 19, file_of((1, 1), [(0, 1, [1])], count))
            self.refused_file(24, 19, file_of((1, 1), [(0, 1, [1])], count) + b"x")
        self.refused_file(24, 5, file_of((), (), 1))
        self.refused_file(24, 4 + 4 * 65536 + 2, file_of((0,), [(0, 0, ())] * 65536, 0))

    def test_bytes_after_the_end(self):
        for rest in (b"\0", b"ED\1\0", b"PR\0\1", self.TWO):
            self.refused_file(25, 21, self.TWO + rest)

    def test_the_examination_of_what_was_read(self):
        one = [1]
        for sizes, pairs, number, place in (
                ([1] * 65, [], 2, 0), ([0] * 255, [], 2, 0), ([255] * 255, [(254, 0, [AMPLE] * 255)], 2, 0),
                ((1, 0), [], 3, 1), ((65,), [], 3, 0), ((255,), [(0, 0, [0] * 255)], 3, 0),
                ((1,), [(0, 0, one)] * 2017, 4, 0), ((1,), [(0, 0, one)] * 65535, 4, 0),
                ((1, 1), [(0, 2, one)], 51, 1), ((1, 1), [(1, 255, one)], 51, 1), ((1, 1), [(1, 1, one)], 52, 1),
                ((1, 1), [(1, 0, one)], 53, 0), ((1, 1), [(0, 1, one)] * 2, 54, 2),
                ((1, 1, 1), [(0, 2, one), (0, 1, one)], 54, 2), ((1, 2), [(0, 1, [4])], 7, 0),
                ((2, 2, 1), [(0, 1, (3, 3)), (0, 2, (1, 1 << 63))], 7, 3)):
            with self.subTest(number=number, pairs=len(pairs)):
                self.refused_file(number, place, file_of(sizes, pairs))

    def test_the_examination_takes_what_is_fine(self):
        self.assertEqual(Tables.from_bytes(file_of([64] * 64)).run(BT), ((0,) * 64, 0, 64))
        self.assertEqual(Tables.from_bytes(b"SZ\0ED\0\0").run(), ((), 0, 0))


class NothingWraps(Trying):
    def test_sizes(self):
        for size in (256, 257, 300, -1, -255, AMPLE + 2, 10**5000):
            self.no_fit("size of boat 1 ", Tables, (1, size))

    def test_pairs(self):
        for boat in (256, 257, -1, -255, AMPLE + 2):
            self.no_fit("lower boat of pair 1 ", Tables, (2, 2), [(0, 1), (boat, 1)], [APART] * 2)
            self.no_fit("higher boat of pair 0 ", Tables, (2, 2), [(0, boat)], [APART])

    def test_a_pair_is_two_boats(self):
        for pair in ((), (0,), (0, 1, 2), (0, 1, 0, 2)):
            self.no_fit("pair 1 is not two boats", Tables, (2, 2, 2), [(0, 1), pair], [APART] * 2)

    def test_rows(self):
        for row in (AMPLE + 1, AMPLE + 2, -1, 10**5000):
            self.no_fit("row 1 of pair 0 ", Tables, (2, 2), [(0, 1)], [[1, row]])

    def test_plan(self):
        for slot in (256, 257, -1, -256):
            self.no_fit("slot of boat 1 ", C.is_lawful, (0, slot))
            self.no_fit("slot of boat 1 ", C.first_broken, (0, slot))

    def test_allowances(self):
        for allowance in (AMPLE + 1, AMPLE + 100, -1, -AMPLE):
            self.no_fit("allowance of checks ", D.run, BT, allowance)
            self.no_fit("allowance of trials ", D.run, BT, AMPLE, allowance)

    def test_method(self):
        for method in (AMPLE + 1, AMPLE + 2, -1):
            self.no_fit("method ", D.run, method)

    def test_boats_asked_for(self):
        for boat in (AMPLE + 1, -AMPLE - 1, -1):
            self.no_fit("lower boat ", C.rows_of, boat, 1)
        for boat in (AMPLE + 2, -AMPLE, -1):
            self.no_fit("higher boat ", C.rows_of, 0, boat)

    def test_only_whole_numbers_are_numbers(self):
        for value in (1.5, 1.0, True, False, "1", None):
            for call, given in ((Tables, [(2, value)]), (Tables, [(2, 2), [(0, value)], [APART]]),
                                (Tables, [(2, 2), [(value, 1)], [APART]]), (Tables, [(2, 2), [(0, 1)], [(1, value)]]),
                                (D.run, [value]), (D.run, [BT, value]), (D.run, [BT, AMPLE, value]),
                                (C.is_lawful, [(0, value)]), (C.first_broken, [(0, value)]),
                                (C.rows_of, [value, 1]), (C.rows_of, [0, value])):
                with self.subTest(call=call, given=given):
                    self.assertRaises(TypeError, call, *given)

    def test_whatever_is_a_whole_number_is_one(self):
        class One:
            def __index__(self):
                return 1
        tables = Tables((One(), 1), [(0, One())], [[One()]])
        self.assertEqual(tables.run(One(), One()), ((0, 0), 1, 2))


class Memory(Trying):
    def test_later_changes_of_what_was_given_have_no_effect(self):
        sizes, pairs, rows = bytearray((2, 2)), [bytearray((0, 1))], [(ctypes.c_uint64 * 2)(2, 1)]
        tables = Tables(sizes, pairs, rows)
        sizes[0], pairs[0][1], rows[0][0] = 0, 0, 1
        sizes.append(9), pairs.append((3, 3)), rows.append([9])
        self.assertEqual((tables.run(), tables.rows_of(0, 1)), (((0, 1), 2, 2), (2, 1)))

    def test_what_is_given_may_be_read_only_once(self):
        tables = Tables(iter((2, 2)), iter([iter((0, 1))]), iter([iter(APART)]))
        self.assertEqual((tables.run(BT), tables.is_lawful(iter((1, 0)))), (((0, 1), 2, 3), True))

    def lent(self, name, call, *given, **reply):
        """What the library's function is lent in a call; its reply is all 0 but for what is said."""
        made = oonjaluvai._FUNCTIONS[name][0](**reply)
        with mock.patch.object(oonjaluvai, "_library") as library:
            getattr(library, name).return_value = getattr(made, "value", made)
            call(*given)
        return getattr(library, name).call_args[0]

    def test_no_part_overlaps_another(self):
        given = bytes((1,))
        tables = Tables(given)
        for name, ask in (("harbour_lawful", tables.is_lawful), ("harbour_broken", tables.first_broken)):
            lent = self.lent(name, ask, given)
            self.assertNotEqual(ctypes.addressof(lent[0]), ctypes.addressof(lent[6]))

    def test_each_part_has_the_length_that_is_said(self):
        for name, call in (("harbour_run", G.run), ("harbour_lawful", lambda: G.is_lawful((0,) * 4)),
                           ("harbour_examine", lambda: Tables((2, 1, 3), [(0, 2)], [[1, 7]]))):
            lent = self.lent(name, call)
            lengths = [(len(part), said) for part, said in zip(lent, lent[1:]) if isinstance(part, ctypes.Array)]
            self.assertEqual(len(lengths), {"harbour_run": 5, "harbour_lawful": 4, "harbour_examine": 3}[name])
            for length, said in lengths:
                self.assertEqual(length, said)

    def test_a_file_gets_all_the_memory_that_it_can_ask_for(self):
        for data in (b"", bytes(7), bytes(8), bytes(1000)):
            words = len(data) // 8
            for name, lent in (("read", self.lent("harbour_read", Tables.from_bytes, data)),
                               ("lawful_file", self.lent("harbour_lawful_file", lawful_file, data, (1, 2, 3)))):
                self.assertEqual((len(lent[0]), lent[1]), (len(data), len(data)))
                if name == "lawful_file":
                    self.assertEqual((bytes(lent[2]), lent[3]), (bytes((1, 2, 3)), 3))
                self.assertEqual([len(part) for part in lent[-6::2]], [255, 131070, words])
                self.assertEqual(list(lent[-5::2]), [255, 131070, words])

    def test_what_is_read_has_memory_of_its_own(self):
        tables = Tables.from_bytes(G.to_bytes())
        lent = self.lent("harbour_run", tables.run)
        self.assertEqual([len(part) for part in lent[1:7:2]], [4, 6, 6])
        self.assertEqual(lent[2:8:2], (4, 6, 6))

    def test_a_file_is_written_into_its_length(self):
        lent = self.lent("harbour_write", G.to_bytes, length=71)
        self.assertEqual((len(lent[6]), lent[7]), (71, 71))

    def test_each_run_has_working_words_of_its_own(self):
        first, second = self.lent("harbour_run", D.run), self.lent("harbour_run", D.run)
        for at in (7, 9):
            self.assertIsNot(first[at], second[at])
        self.assertEqual((len(first[9]), first[10]), (8192, 8192))

    def test_two_threads_at_once(self):
        asked = [(queens(16), BT), (queens(18), FC), (queens(16), CBJ), (queens(18), FC_CBJ)]
        due = [tables.run(method) for tables, method in asked]
        start, seen = threading.Barrier(2), [[], []]

        def ask(own, order):
            start.wait()
            for at in order * 3:
                own.append((at, asked[at][0].run(asked[at][1])))

        threads = [threading.Thread(target=ask, args=given) for given in zip(seen, ([0, 1, 2, 3], [3, 2, 1, 0]))]
        for thread in threads:
            thread.start()
        for thread in threads:
            thread.join()
        self.assertEqual([len(own) for own in seen], [12, 12])
        for at, decided in seen[0] + seen[1]:
            self.assertEqual(decided, due[at])


class Exceptions(Trying):
    def test_a_refusal_is_told_in_one_line_with_its_place(self):
        for number in (1, 2, 3, 4, 51, 52, 53, 54, 6, 7, 8, 9, 10, 11, 21, 22, 23, 24, 25, 26):
            told = str(Refused(number, 47))
            self.assertIn(f"number {number}:", told)
            self.assertNotIn("\n", told)
            self.assertNotIn("{", told)
            self.assertEqual("47" in told, number in (3, 51, 52, 53, 54, 7, 11, 21, 22, 23, 24, 25))
            self.assertEqual("pair 23" in told, number in (51, 52, 53, 54))
        for number in (5, 12, 20, 27, 50, 55):
            self.assertEqual(str(Refused(number, 47)), f"refused, number {number}: at place 47")

    def test_a_refusal_names_the_pair_of_its_byte(self):
        for number in (51, 52, 53, 54):
            self.assertEqual([Refused(number, byte).pair for byte in (0, 1, 2, 4031)], [0, 0, 1, 2015])
        for number in (1, 2, 3, 4, 5, 6, 7, 8, 9, 10, 11, 21, 22, 23, 24, 25, 26, 50, 55):
            self.assertIsNone(Refused(number, 47).pair)

    def test_undecided_is_told_as_undecided(self):
        for allowance in ("checks", "trials"):
            told = str(Undecided(allowance, 123, 456))
            for words in (f"allowance of {allowance}", "123", "456", "may exist or not", "larger allowance may decide"):
                self.assertIn(words, told)

    def test_kinds(self):
        self.assertTrue(issubclass(Refused, ValueError))
        self.assertEqual(Undecided.__bases__, (Exception,))

    def test_copies_and_pickles(self):
        for made in (Refused(7, 3), Undecided("trials", 5, 6)):
            for again in (copy.copy(made), pickle.loads(pickle.dumps(made))):
                self.assertEqual((type(again), vars(again), str(again)), (type(made), vars(made), str(made)))


class Library(Trying):
    def answered(self, name, answer, call, *given):
        with mock.patch.object(oonjaluvai, "_library") as library:
            getattr(library, name).return_value = oonjaluvai._FUNCTIONS[name][0](answer)
            self.assertRaisesRegex(RuntimeError, f"not known: {answer}$", call, *given)

    def test_an_answer_that_is_not_known(self):
        for answer in (4, 5, 99, 100, 112, AMPLE):
            self.answered("harbour_run", answer, D.run)
        for answer in (2, 3, 100, 112, AMPLE):
            self.answered("harbour_lawful", answer, C.is_lawful, (0, 1))
            self.answered("harbour_broken", answer, C.first_broken, (0, 1))
        for answer in (1, 2, 3, 100, 112, AMPLE):
            self.answered("harbour_examine", answer, Tables, (2, 2), [(0, 1)], [APART])
            self.answered("harbour_examine", answer, Tables, (2, 2), [(0, 1)], [])
            self.answered("harbour_read", answer, Tables.from_bytes, b"")
            self.answered("harbour_write", answer, C.to_bytes)

    def test_an_answer_to_the_desk_that_is_not_known(self):
        """A refusal that the reading does not make is one of them."""
        for data, answers in ((C.to_bytes(), (2, 99, 100, 107, 112, 121, AMPLE)), (b"XY", (2, 100, 107, 122, AMPLE))):
            for answer in answers:
                with mock.patch.object(oonjaluvai._library, "harbour_lawful_file", return_value=answer):
                    self.assertRaisesRegex(RuntimeError, f"not known: {answer}$", lawful_file, data, (0, 1))

    def test_tables_that_are_not_there(self):
        for lengths in ((256, 0, 0), (0, 131071, 0), (0, 0, 2), (AMPLE, AMPLE, AMPLE)):
            with mock.patch.object(oonjaluvai, "_library") as library:
                library.harbour_read.return_value = oonjaluvai._ReadReply(0, 0, *lengths)
                self.assertRaisesRegex(RuntimeError, "not there", Tables.from_bytes, bytes(15))

    def test_a_file_of_another_length(self):
        for length in (0, 28, 30, AMPLE):
            with mock.patch.object(oonjaluvai, "_library") as library:
                library.harbour_write.return_value = oonjaluvai._Written(0, 0, length)
                self.assertRaisesRegex(RuntimeError, "another length", C.to_bytes)

    def test_rows_that_are_not_there(self):
        for start, length in ((0, 3), (2, 1), (1, 2), (AMPLE, 1), (0, AMPLE)):
            with mock.patch.object(oonjaluvai, "_library") as library:
                library.harbour_rows.return_value = oonjaluvai._Part(start, length)
                self.assertRaises(RuntimeError, C.rows_of, 0, 1)

    def test_each_function_says_what_it_takes_and_gives(self):
        lengths = {"run": (13, 32), "examine": (6, 32), "lawful": (8, 32), "broken": (8, 32), "rows": (8, 16),
                   "read": (8, 40), "write": (8, 24), "lawful_file": (10, 8)}
        self.assertEqual({"harbour_" + name for name in lengths}, set(oonjaluvai._FUNCTIONS))
        for name, (given, reply) in lengths.items():
            function = getattr(oonjaluvai._library, "harbour_" + name)
            self.assertEqual((len(function.argtypes), ctypes.sizeof(function.restype)), (given, reply))

    def test_the_interpreter_goes_on_during_a_call(self):
        self.assertNotIsInstance(oonjaluvai._library, ctypes.PyDLL)

    def test_what_is_public(self):
        self.assertEqual(set(oonjaluvai.__all__), {"BT", "CBJ", "BM", "FC", "FC_CBJ", "AMPLE", "Tables", "lawful_file",
                                                   "Decided", "Refused", "Undecided"})

    def test_the_example(self):
        tried = doctest.testmod(oonjaluvai)
        self.assertEqual((tried.failed, tried.attempted), (0, 4))


class Loading(unittest.TestCase):
    def imported(self, library, **more):
        """How importing ends where HARBOUR_LIBRARY is this; None leaves it unset."""
        around = {name: value for name, value in os.environ.items() if name != "HARBOUR_LIBRARY"}
        around.update(more, **({} if library is None else {"HARBOUR_LIBRARY": library}))
        tried = ("try:\n    import oonjaluvai\nexcept ImportError as error:\n    print(error)\n"
                 "else:\n    print('loaded')")
        done = subprocess.run([sys.executable, "-B", "-c", tried], env=around, stdout=subprocess.PIPE,
                              cwd=os.path.dirname(os.path.abspath(__file__)), check=True, universal_newlines=True)
        return done.stdout.strip()

    def says_what_helps(self, told, wanted):
        for words in (f"looked for as {wanted} ", "make install", "HARBOUR_LIBRARY"):
            self.assertIn(words, told)

    def test_a_missing_library(self):
        with tempfile.TemporaryDirectory() as folder:
            missing = os.path.join(folder, "libharbour.so.2")
            self.says_what_helps(self.imported(missing), missing)

    def test_a_library_without_the_functions(self):
        self.says_what_helps(self.imported(_ctypes.__file__), os.path.abspath(_ctypes.__file__))

    def test_a_bare_name_is_a_path(self):
        here = os.path.dirname(os.path.abspath(__file__))
        self.says_what_helps(self.imported("libc.so.6"), os.path.join(here, "libc.so.6"))

    def test_the_loader_is_asked_where_nothing_is_named(self):
        with tempfile.TemporaryDirectory() as folder:
            open(os.path.join(folder, "libharbour.so.2"), "w").close()
            for unnamed in (None, ""):
                self.says_what_helps(self.imported(unnamed, LD_LIBRARY_PATH=folder), "libharbour.so.2")

    @unittest.skipUnless(os.environ.get("HARBOUR_LIBRARY"), "needs the path of a library")
    def test_the_loader_finds_it(self):
        with tempfile.TemporaryDirectory() as folder:
            os.symlink(os.path.abspath(os.environ["HARBOUR_LIBRARY"]), os.path.join(folder, "libharbour.so.2"))
            self.assertEqual(self.imported(None, LD_LIBRARY_PATH=folder), "loaded")


if __name__ == "__main__":
    unittest.main()

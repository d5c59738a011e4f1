"""The checked figures, every refusal, and what Python hands over: python3 test_qrh.py"""

import doctest
import math
import os
import pickle
import subprocess
import tempfile
import unittest
from array import array
from ctypes import c_bool, c_double, c_size_t, c_uint8, c_uint32, c_uint64
from concurrent.futures import ThreadPoolExecutor
from decimal import Decimal
from pathlib import Path

import qrh
from qrh import FUTURE, Call, DownAndOut, Put, Refusal, Segment

try:
    import numpy
except ImportError:
    numpy = None

ROOT = Path(__file__).resolve().parent.parent.parent
QUARTER = [Segment("0.25", 1)]


def model(**changes):
    """n = 1, weight 1, discount 4, a = 1, b = 0, c = 4, lambda = eta = 1, spot 100, factor 0."""
    given = dict(
        weights=[1.0], discounts=[4.0], a=1, b=0, c=4, lambda_=1, eta=1, spot=100, factors=[0])
    return qrh.Model(**(given | changes))


def bits(x):
    return int.from_bytes(array("d", [x]).tobytes(), "little")


def load_tests(loader, tests, pattern):
    tests.addTests(doctest.DocTestSuite(qrh))
    return tests


class Figures(unittest.TestCase):
    def test_conversion(self):
        self.assertEqual(bits(qrh.convert("0.1")), 0x3FB999999999999A)
        self.assertEqual(qrh.convert(9007199254740993), 9007199254740992.0)
        self.assertEqual(qrh.convert(9007199254740995), 9007199254740996.0)
        self.assertEqual(qrh.convert(Decimal("9007199254740993.0000001")), 9007199254740994.0)
        self.assertEqual(bits(qrh.convert("-0E-29")), 0)
        self.assertEqual(qrh.convert("1E28"), 1e28)
        with self.assertRaises(Refusal) as caught:
            qrh.convert("1E-29")
        self.assertEqual(caught.exception.number, 1)

    def test_square_root(self):
        self.assertEqual(qrh.sqrt(2.0**-1074), 2.0**-537)
        self.assertEqual(bits(qrh.sqrt(2.0)), 0x3FF6A09E667F3BCD)
        self.assertTrue(math.isnan(qrh.sqrt(-1.0)))

    def test_trace(self):
        path = qrh.trace(model(), QUARTER, [0.5])
        self.assertEqual((path.steps, list(path.spots)), (1, [100.0, 150.0]))
        self.assertEqual(list(path.z), [0.0, 0.25])
        self.assertEqual((list(path.variances), list(path.factors)), ([4.0, 4.0625], [0.0, 0.25]))
        path = qrh.trace(model(), QUARTER, [-1.0])
        self.assertEqual((path.spots[1], path.z[1], path.variances[1]), (0.0, -0.5, 4.25))

    def test_vanilla(self):
        answer = qrh.vanilla(model(), QUARTER, Call(100), 2, [0.5, -1.0])
        self.assertEqual(answer[:7], (25.0, 25.0, 75.0, 75.0, 2, 1, 2))
        self.assertEqual(list(answer.observations), [150.0, 0.0])
        table = array("d", [7.0, 7.0])
        with self.assertRaises(Refusal) as caught:
            qrh.vanilla(model(), QUARTER, Call(100), 2, [0.5, math.inf], observations=table)
        refusal = caught.exception
        self.assertEqual((refusal.number, refusal.place, refusal.steps), (22, (2, 1, 1, 2), 2))
        self.assertEqual(list(table), [150.0, 7.0])

    def test_mirrored(self):
        answer = qrh.mirrored(model(), QUARTER, Call(100), 4, [0.5, 0.25])
        self.assertEqual(answer[:7], (18.75, 6.25, 100.0, 0.0, 4, 0, 4))
        self.assertEqual(list(answer.observations), [150.0, 50.0, 125.0, 75.0])

    def test_down_and_out(self):
        # The spots are 100, 150 and 100, 0: the start counts, and so does the barrier itself.
        for barrier, price, error in [
            (50, 25.0, 25.0),
            (99, 25.0, 25.0),
            ("99.9999999999999999999", 0.0, 0.0),  # as converted it is 100
            (100, 0.0, 0.0),
            (1000, 0.0, 0.0),
        ]:
            with self.subTest(barrier=barrier):
                option = DownAndOut(200, barrier)
                answer = qrh.vanilla(model(), QUARTER, option, 2, [0.5, -1.0])
                self.assertEqual(answer[:7], (price, error, 75.0, 75.0, 2, 1, 2))
                self.assertEqual(list(answer.observations), [150.0, 0.0])

    def test_a_spot_that_fell_and_rose_again(self):
        # Each path has the spot 50 after its first step, and ends above 75.
        for paths in (2, 4, 6):
            with self.subTest(paths=paths):
                given = model(), [("0.25", 2)]
                draws = [-0.5, 1.0, -0.5, 0.5] * (paths // 2)
                vanished = qrh.vanilla(*given, DownAndOut(200, 50), paths, draws)
                self.assertEqual(vanished[:2], (0.0, 0.0))
                self.assertGreater(min(vanished.observations), 75.0)
                alive = qrh.vanilla(*given, DownAndOut(200, 49), paths, draws)
                self.assertEqual(alive, qrh.vanilla(*given, Put(200), paths, draws))

    def test_exponential(self):
        answer = qrh.exponential(2, [0, 1, 0, 0])
        self.assertEqual((list(answer.output), answer.squarings), ([1.0, 1.0, 0.0, 1.0], 1))
        answer = qrh.exponential(1, [0.5])
        self.assertEqual((list(answer.output), answer.squarings), ([1.6487212707001282], 0))

    def test_vix(self):
        flat = model(a=0)
        self.assertEqual(qrh.vix(flat, "0.25"), (40000.0, 200.0))
        self.assertEqual(qrh.vix(flat, "0.25", [0]), (40000.0, 200.0))
        answer = qrh.vix_batch(flat, QUARTER, "0.25", FUTURE, 2, [0.5, -1.0])
        self.assertEqual(answer[:6], (200.0, 0.0, 200.0, 0.0, 2, 2))
        self.assertEqual(list(answer.observations), [40000.0, 40000.0])
        for payoff, paid in [(Call(150), 50.0), (Put("201.5"), 1.5)]:
            answer = qrh.vix_batch(flat, QUARTER, "0.25", payoff, 2, [0.5, -1.0])
            self.assertEqual(answer.payoff, paid)

    def test_limits(self):
        wide = dict(weights=[1.0] * 10, discounts=[1.0] * 10, factors=[0] * 10)
        self.assertEqual(qrh.trace(model(**wide), QUARTER, [0.5]).steps, 1)
        self.assertEqual(qrh.trace(model(), [("0.25", 4096)], [0.0] * 4096).steps, 4096)

    def test_the_segment_that_contains_a_step(self):
        draws = [0.5, -0.25, 1.0, 0.5, -0.5]
        path = qrh.trace(model(), [("0.25", 2), ("0.5", 3)], draws)
        for k in range(1, 6):
            dt = 0.25 if k <= 2 else 0.5
            d = math.sqrt(path.variances[k - 1]) * (math.sqrt(dt) * draws[k - 1])
            self.assertEqual(path.spots[k], path.spots[k - 1] + path.spots[k - 1] * d)


class Places(unittest.TestCase):
    """Names do not cross the edge, so in these answers no two values or tables are equal."""

    # z is 1 and the variance 4 at the start; three paths rise and one falls, in two steps each
    UNEVEN = model(weights=[2.0], a=8, b="0.5", c=2, lambda_=3, eta="1.5", factors=["0.5"])
    TWO_QUARTERS = [Segment("0.25", 2)]
    FALL = [0.5, 0.0, 0.5, 0.0, 0.5, 0.0, -1.0, 0.0]
    # Two lists of draws, and the spots of their mirrored paths.
    RISES = [0.5, 0.5, 0.25, 0.0]
    MIRRORED = [203.03300858899107, -5.9016994374947416, 125.0, 75.0]

    def test_each_table_of_a_trace_is_its_own(self):
        path = qrh.trace(self.UNEVEN, self.TWO_QUARTERS, [0.25, 0.0])
        self.assertEqual(path.steps, 2)
        self.assertEqual(list(path.spots), [100.0, 125.0, 125.0])
        self.assertEqual(list(path.variances), [4.0, 3.125, 4.2578125])
        self.assertEqual(list(path.z), [1.0, 0.125, -0.03125])
        self.assertEqual(list(path.factors), [0.5, 0.0625, -0.015625])

    def test_each_value_of_a_batch_is_its_own(self):
        answer = qrh.vanilla(self.UNEVEN, self.TWO_QUARTERS, Call(110), 4, self.FALL)
        self.assertEqual((answer.price, answer.price_error), (30.0, 10.0))
        self.assertEqual((answer.spot_mean, answer.spot_error), (112.5, 37.5))
        self.assertEqual((answer.paths, answer.non_positive, answer.steps), (4, 1, 8))
        self.assertEqual(list(answer.observations), [150.0, 150.0, 150.0, 0.0])
        answer = qrh.mirrored(self.UNEVEN, self.TWO_QUARTERS, Call(110), 4, self.RISES)
        self.assertEqual(answer[:2], (27.008252147247767, 19.508252147247767))
        self.assertEqual(answer[2:4], (99.282827287874085, 0.71717271212591527))
        self.assertEqual((answer.paths, answer.non_positive, answer.steps), (4, 1, 8))
        self.assertEqual(list(answer.observations), self.MIRRORED)

    def test_each_value_of_a_barrier_batch_is_its_own(self):
        option = DownAndOut(strike=170, barrier=60)
        answer = qrh.vanilla(self.UNEVEN, self.TWO_QUARTERS, option, 4, self.FALL)
        self.assertEqual((answer.price, answer.price_error), (15.0, 5.0))
        self.assertEqual((answer.spot_mean, answer.spot_error), (112.5, 37.5))
        self.assertEqual((answer.paths, answer.non_positive, answer.steps), (4, 1, 8))
        self.assertEqual(list(answer.observations), [150.0, 150.0, 150.0, 0.0])
        option = DownAndOut(strike=230, barrier=60)
        answer = qrh.mirrored(self.UNEVEN, self.TWO_QUARTERS, option, 4, self.RISES)
        self.assertEqual(answer[:2], (71.741747852752241, 58.258252147247759))
        self.assertEqual(answer[2:4], (99.282827287874085, 0.71717271212591527))
        self.assertEqual((answer.paths, answer.non_positive, answer.steps), (4, 1, 8))
        self.assertEqual(list(answer.observations), self.MIRRORED)

    def test_each_value_of_the_vix_is_its_own(self):
        now = qrh.vix(self.UNEVEN, "0.0625", ["0.25"])
        self.assertEqual((now.squared, now.index), (210107.75256414909, 458.37512210431873))
        answer = qrh.vix_batch(
            self.UNEVEN, self.TWO_QUARTERS, "0.0625", Call(500), 4, self.FALL)
        self.assertEqual(
            (answer.payoff, answer.payoff_error), (157.44415375902315, 52.481384586341051))
        self.assertEqual(
            (answer.index, answer.index_error), (649.18190084965352, 60.743637495710672))
        self.assertEqual((answer.paths, answer.steps), (4, 8))
        high, low = 503994.26999495522, 218043.22553273573
        self.assertEqual(list(answer.observations), [high, high, high, low])


class Refusals(unittest.TestCase):
    def refused(self, number, call, *words, place=(), steps=None, **named):
        with self.assertRaises(Refusal) as caught:
            call(*words, **named)
        refusal = caught.exception
        self.assertEqual((refusal.number, refusal.place, refusal.steps), (number, place, steps))
        self.assertEqual(str(refusal), f"{refusal.sentence} (refusal {number})")

    def test_models(self):
        for number, place, changes in [
            (1, (), dict(b="1E-29")),
            (2, (), dict(weights=[])),
            (2, (), dict(weights=[1.0] * 11)),
            (3, (), dict(discounts=[])),
            (4, (1, 1), dict(weights=[0.0])),
            (4, (2, 1), dict(discounts=[math.nan])),
            (5, (), dict(a=-1)),
            (6, (), dict(c=0)),
            (7, (), dict(lambda_="-0.5")),
            (8, (), dict(eta="0E-255")),
            (9, (), dict(spot=0)),
            (10, (), dict(factors=[])),
            (10, (), dict(factors=[0] * 12)),
        ]:
            with self.subTest(number=number):
                self.refused(number, qrh.trace, model(**changes), QUARTER, [0.5], place=place)

    def test_schedules(self):
        for number, place, segments in [
            (11, (), []),
            (12, (), [("0.25", 1)] * 65),
            (13, (2,), [("0.25", 1), ("0.25", 0)]),
            (13, (1,), [("0", 1)]),
            (14, (2,), [("0.25", 4096), ("0.25", 1)]),
            (14, (1,), [("0.25", 2**32 - 1)]),
            (1, (), [("1E-29", 1)]),
        ]:
            with self.subTest(number=number):
                self.refused(number, qrh.trace, model(), segments, [0.5], place=place)

    def test_windows_and_matrices(self):
        self.refused(15, qrh.vix, model(), 0)
        self.refused(16, qrh.vix, model(), 1, workspace=array("d", [0.0] * 79))
        self.refused(17, qrh.vix, model(a=10000), "0.25")
        self.refused(10, qrh.vix, model(), "0.25", [0, 0])
        self.refused(1, qrh.vix, model(), "0.25", ["1E-29"])
        self.refused(26, qrh.exponential, 0, [])
        self.refused(26, qrh.exponential, 68, [0.0] * 68 * 68)
        self.refused(26, qrh.exponential, 2, [0.0] * 3)
        self.refused(17, qrh.exponential, 1, [2.0**1023])

    def test_batches(self):
        self.refused(18, qrh.vanilla, model(), QUARTER, Call(-1), 2, [0.5, 0.5])
        self.refused(18, qrh.vix_batch, model(), QUARTER, 1, Put(-1), 2, [0.5, 0.5])
        self.refused(19, qrh.vanilla, model(), QUARTER, Call(1), 1, [0.5])
        self.refused(19, qrh.vanilla, model(), QUARTER, Call(1), 2**64 - 1, [0.5])
        self.refused(19, qrh.mirrored, model(), QUARTER, Call(1), 3, [0.5])
        self.refused(28, qrh.mirrored, model(), QUARTER, Call(1), 2, [0.5])
        self.refused(28, qrh.mirrored, model(), QUARTER, DownAndOut(1, 1), 2, [])
        self.refused(20, qrh.vanilla, model(), QUARTER, Call(1), 2, [0.5])
        self.refused(20, qrh.vanilla, model(), QUARTER, Call(1), 2, [])
        for short in (array("d", [0.0]), array("d")):
            self.refused(
                21, qrh.vanilla, model(), QUARTER, Call(1), 2, [0.5, 0.5], observations=short)

    def test_barriers(self):
        fine = "1E-29"
        for number, strike, barrier, paths in [
            (27, 100, 0, 2),
            (27, 100, -1, 2),
            (1, 100, fine, 2),
            # In the order of the questions: 18 and 1 of the strike, 27 and 1 of the barrier, 19.
            (18, -1, 0, 1),
            (1, fine, 0, 1),
            (27, 100, 0, 1),
            (1, 100, fine, 1),
            (19, 100, 50, 1),
        ]:
            for call in (qrh.vanilla, qrh.mirrored):
                with self.subTest(number=number, call=call.__name__):
                    table = array("d", [7.0, 7.0])
                    option = DownAndOut(strike, barrier)
                    self.refused(
                        number, call, model(), QUARTER, option, paths, [0.5, 0.5],
                        observations=table)
                    self.assertEqual(list(table), [7.0, 7.0])

    def test_steps_that_are_not_finite(self):
        self.refused(22, qrh.trace, model(), QUARTER, [math.inf], place=(1, 1, 1, 1), steps=1)
        steep = model(eta="1E28")
        self.refused(22, qrh.trace, steep, QUARTER, [1e290], place=(1, 1, 2, 1), steps=1)
        self.refused(22, qrh.trace, model(), QUARTER, [1e200], place=(1, 1, 3, 1), steps=1)
        spots = array("d", [7.0] * 4)
        self.refused(
            22, qrh.trace, model(), [("0.25", 3)], [0.5, math.nan, 0.5],
            place=(1, 2, 1, 2), steps=2, spots=spots)
        self.assertEqual(list(spots), [100.0, 150.0, 7.0, 7.0])

    def test_estimates_and_vix_squared(self):
        for draw, place in [(1e153, (2,)), (-1e153, (4,))]:
            self.refused(
                25, qrh.vanilla, model(), QUARTER, Call(100), 2, [draw, 0.5], place=place, steps=2)
        steep = model(a=2700)
        self.refused(
            23, qrh.vix_batch, steep, QUARTER, "0.25", FUTURE, 2, [0.5, 2e8], place=(2,), steps=2)
        self.refused(23, qrh.vix, steep, "0.25", [10**8])
        tiny = "1E-28"
        zero = model(b=1, c=tiny, lambda_=tiny, eta=tiny, discounts=[2.0**-80], factors=[1])
        self.refused(
            24, qrh.vix_batch, zero, QUARTER, "0.25", FUTURE, 2, [0.0, 0.0], place=(1,), steps=2)
        self.refused(24, qrh.vix, zero, "0.25")

    def test_sentences(self):
        numbers = []
        for line in (ROOT / "tests" / "refusals.txt").read_text().splitlines():
            if line.startswith("#"):
                continue
            number, place, sentence = line.split(" | ", 2)
            refusal = Refusal(int(number), tuple(map(int, place.split())))
            self.assertEqual(refusal.sentence, sentence)
            numbers.append(int(number))
        *known, unknown = sorted(set(numbers))
        self.assertEqual((known, unknown), (list(range(1, len(known) + 1)), 99))

    def test_a_refusal_travels(self):
        copy = pickle.loads(pickle.dumps(Refusal(22, (2, 1, 1, 2), 2)))
        self.assertEqual((copy.number, copy.place, copy.steps), (22, (2, 1, 1, 2), 2))


class Inputs(unittest.TestCase):
    def test_decimals(self):
        largest = 2**96 - 1
        for text in ["0", "-0", "-0.25", str(largest), "1E+5", "1E-255", "0E+400"]:
            d = qrh._decimal(text)
            digits = tuple(map(int, str(d.high << 64 | d.low)))
            self.assertEqual(Decimal((int(d.negative), digits, -d.scale)), Decimal(text))
        for wrong in [str(largest + 1), "1E-256", "1E+29", "1E+1000000000", "NaN", "Infinity"]:
            with self.assertRaises(ValueError):
                qrh.convert(wrong)
        with self.assertRaises(TypeError):
            qrh.convert(0.1)

    def test_numbers_that_no_edge_holds(self):
        with self.assertRaises(ValueError):
            qrh.vanilla(model(), QUARTER, Call(1), -1, [0.5])
        with self.assertRaises(ValueError):
            qrh.trace(model(), [("0.25", 2**32)], [0.5])
        with self.assertRaises(TypeError):
            qrh.vanilla(model(), QUARTER, Call(1), 2.0, [0.5, 0.5])
        with self.assertRaises(TypeError):
            qrh.vanilla(model(), QUARTER, FUTURE, 2, [0.5, 0.5])
        with self.assertRaises(TypeError):
            qrh.vix_batch(model(), QUARTER, 1, DownAndOut(100, 50), 2, [0.5, 0.5])

    def test_draws(self):
        draws = array("d", [0.5, -1.0])
        expected = qrh.vanilla(model(), QUARTER, Call(100), 2, draws).price
        read_only = memoryview(draws.tobytes()).cast("d")
        for given in (list(draws), tuple(draws), memoryview(draws), read_only, array("f", draws)):
            self.assertEqual(qrh.vanilla(model(), QUARTER, Call(100), 2, given).price, expected)
        for wrong in (draws.tobytes(), "0.5", ["a", "b"], None):
            with self.assertRaises(TypeError):
                qrh.vanilla(model(), QUARTER, Call(100), 2, wrong)

    def test_draws_and_tables_are_used_where_they_lie(self):
        draws = array("d", [0.5, -1.0])
        (pointer, length), address = qrh._read(draws), draws.buffer_info()[0]
        self.assertEqual((length, _address(pointer)), (2, address))
        table = array("d", [7.0] * 6)
        part = memoryview(table)[2:4]
        answer = qrh.vanilla(model(), QUARTER, Call(100), 2, draws, observations=part)
        self.assertEqual(list(table), [7.0, 7.0, 150.0, 0.0, 7.0, 7.0])
        self.assertEqual(list(answer.observations), [150.0, 0.0])

    def test_tables_that_cannot_be_written(self):
        table = array("d", [0.0] * 4)
        view = memoryview(table)
        for wrong in (view[::2], view.toreadonly(), array("f", [0.0] * 2), [0.0, 0.0]):
            with self.assertRaises(TypeError):
                qrh.vanilla(model(), QUARTER, Call(100), 2, [0.5, -1.0], observations=wrong)

    @unittest.skipIf(numpy is None, "numpy is not there")
    def test_numpy(self):
        draws = numpy.array([[0.5, -1.0], [0.25, 0.75]])
        segments = [("0.25", 1), ("0.25", 1)]
        table = numpy.full((2, 2), 7.0)
        answer = qrh.vanilla(model(), segments, Call(100), 2, draws, observations=table)
        self.assertIs(answer.observations, table)
        self.assertEqual(table[0, 0], 150.0)
        self.assertEqual(_address(qrh._read(draws)[0]), draws.ctypes.data)
        plain = qrh.vanilla(model(), segments, Call(100), 2, draws.ravel().tolist())
        self.assertEqual(list(plain.observations), table.ravel().tolist())
        self.assertEqual(qrh.exponential(2, numpy.array([[0.0, 1.0], [0.0, 0.0]])).squarings, 1)
        draws.flags.writeable = False
        self.assertEqual(qrh.vanilla(model(), segments, Call(100), 2, draws).price, answer.price)
        with self.assertRaises(TypeError):
            halves = numpy.zeros((2, 2), dtype="float32")
            qrh.vanilla(model(), segments, Call(100), 2, draws, observations=halves)

    def test_threads(self):
        draws = array("d", [0.5, -1.0] * 500)
        segments = [("0.01", 10)]
        with ThreadPoolExecutor(4) as pool:
            price = lambda _: qrh.vanilla(model(), segments, Call(100), 100, draws)[:7]
            answers = pool.map(price, range(16))
        self.assertEqual(len(set(answers)), 1)


def _address(pointer):
    return qrh.ctypes.addressof(pointer._obj)


class Header(unittest.TestCase):
    """The declarations, handed to the C compiler beside include/qrh.h."""

    # size_t and uint64_t are one type, to ctypes as to C.
    PLAIN = {
        c_bool: "bool", c_uint8: "uint8_t", c_uint32: "uint32_t", c_uint64: "uint64_t",
        c_double: "double",
    }

    def declare(self, kind, declarator):
        for name, struct in qrh._STRUCTS.items():
            if kind is struct:
                return f"{name} {declarator}"
        if hasattr(kind, "_length_"):
            return self.declare(kind._type_, f"{declarator}[{kind._length_}]")
        return f"{self.PLAIN[kind]} {declarator}"

    def test_the_header_declares_the_same(self):
        lines = ['#include "qrh.h"']
        for name, struct in qrh._STRUCTS.items():
            size = qrh.ctypes.sizeof(struct)
            lines.append(f'_Static_assert(sizeof({name}) == {size}, "{name}");')
            for field, kind in struct._fields_:
                offset = getattr(struct, field).offset
                lines.append(
                    f'_Static_assert(offsetof({name}, {field}) == {offset}, "{name}.{field}");')
                pointer = self.declare(kind, "(*p)")
                lines.append(
                    f"static inline void {name}_{field}({name} *s) "
                    f"{{ {pointer} = &s->{field}; (void)p; }}")
        words = {
            qrh._Read: "const double *, size_t",
            qrh._Lent: "double *, size_t",
            c_size_t: "size_t",
        }
        for name, (answer, parameters) in qrh._CALLS.items():
            given = [words.get(kind) or self.declare(kind, "") for kind in parameters]
            lines.append(self.declare(answer, f"{name}({', '.join(given)})") + ";")
        header = (ROOT / "include" / "qrh.h").read_text()
        self.assertEqual(header.count("typedef struct"), len(qrh._STRUCTS))
        self.assertEqual(header.count("_length);") + 2, len(qrh._CALLS))
        with tempfile.TemporaryDirectory() as folder:
            file = Path(folder) / "header.c"
            file.write_text("\n".join(lines) + "\n")
            command = [os.environ.get("CC", "cc"), "-std=c11", "-Wall", "-Wextra", "-Werror"]
            command += ["-fsyntax-only", "-I", str(ROOT / "include"), str(file)]
            compiled = subprocess.run(command, capture_output=True, text=True, check=False)
        self.assertEqual(compiled.returncode, 0, compiled.stderr)


if __name__ == "__main__":
    unittest.main()

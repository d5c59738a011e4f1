"""Prices under the quadratic rough Heston model, from draws that you supply.

Decimals go in as decimal.Decimal, int or str, and doubles come out as float. A call that the core
refuses raises Refusal, with the number, the place and a sentence. Draws and tables are any buffer
of doubles: array.array('d'), a memoryview or a numpy array is used where it lies, without a copy,
while a list is copied first. Tables that are not lent are made here, as array.array('d'). One that
is lent, or a workspace, must overlap neither another nor the draws; this is not checked.

    >>> import qrh
    >>> model = qrh.Model(
    ...     weights=[1.0], discounts=[4.0], a=1, b=0, c=4, lambda_=1, eta=1, spot=100, factors=[0])
    >>> schedule = [qrh.Segment("0.25", 1)]
    >>> answer = qrh.vanilla(model, schedule, qrh.Call(100), 2, [0.5, -1.0])
    >>> answer.price, answer.price_error, list(answer.observations)
    (25.0, 25.0, [150.0, 0.0])
    >>> qrh.vanilla(model, schedule, qrh.Call(-1), 2, [0.5, -1.0])
    Traceback (most recent call last):
        ...
    qrh.Refusal: the strike is below zero (refusal 18)

The shared object is built by clients/python/build.sh. It is looked for where QRH_SHARED says,
beside this file, and in target/python.
"""

import ctypes
import operator
import os
from array import array
from ctypes import POINTER, byref, c_bool, c_double, c_size_t, c_uint8, c_uint32, c_uint64
from dataclasses import dataclass
from decimal import Decimal
from pathlib import Path as _File
from typing import NamedTuple

__all__ = [
    "Call", "DownAndOut", "Estimate", "Exponential", "FUTURE", "Model", "Path", "Put", "Refusal",
    "Segment", "Vix", "VixEstimate", "convert", "exponential", "mirrored", "sqrt", "trace",
    "vanilla", "vix", "vix_batch", "workspace_length",
]


# What crosses the edge, as include/qrh.h declares it; test_qrh.py compares the two.

class _Decimal(ctypes.Structure):
    _fields_ = [("low", c_uint64), ("high", c_uint32), ("scale", c_uint8), ("negative", c_bool)]


class _Model(ctypes.Structure):
    _fields_ = [(name, _Decimal) for name in ("a", "b", "c", "lambda", "eta", "spot")]
    _fields_ += [("factor_count", c_size_t), ("factors", _Decimal * 10)]


class _Segment(ctypes.Structure):
    _fields_ = [("dt", _Decimal), ("steps", c_uint32)]


class _Schedule(ctypes.Structure):
    _fields_ = [("count", c_size_t), ("segments", _Segment * 64)]


class _Factors(ctypes.Structure):
    _fields_ = [("count", c_size_t), ("factors", _Decimal * 10)]


class _VixPayoff(ctypes.Structure):
    _fields_ = [("future", c_bool), ("put", c_bool), ("strike", _Decimal)]


_ANSWER = [("number", c_uint32), ("place", c_uint64 * 4)]


class _Conversion(ctypes.Structure):
    _fields_ = _ANSWER + [("value", c_double)]


class _Tracing(ctypes.Structure):
    _fields_ = _ANSWER + [("steps", c_uint64)]


class _Estimate(ctypes.Structure):
    _fields_ = _ANSWER + [
        (name, c_double) for name in ("price", "price_error", "spot_mean", "spot_error")]
    _fields_ += [(name, c_uint64) for name in ("paths", "non_positive", "steps")]


class _VixValue(ctypes.Structure):
    _fields_ = _ANSWER + [("squared", c_double), ("index", c_double)]


class _VixEstimate(ctypes.Structure):
    _fields_ = _ANSWER + [
        (name, c_double) for name in ("payoff", "payoff_error", "index", "index_error")]
    _fields_ += [("paths", c_uint64), ("steps", c_uint64)]


class _Exponentiation(ctypes.Structure):
    _fields_ = _ANSWER + [("squarings", c_uint64)]


_STRUCTS = {
    "qrh_decimal": _Decimal,
    "qrh_model": _Model,
    "qrh_segment": _Segment,
    "qrh_schedule": _Schedule,
    "qrh_factors": _Factors,
    "qrh_vix_payoff": _VixPayoff,
    "qrh_conversion": _Conversion,
    "qrh_tracing": _Tracing,
    "qrh_estimate": _Estimate,
    "qrh_vix_value": _VixValue,
    "qrh_vix_estimate": _VixEstimate,
    "qrh_exponentiation": _Exponentiation,
}


class _Read:
    """A slice that is read. In C: const double *, size_t."""


class _Lent:
    """A slice that is written. In C: double *, size_t."""


_KERNEL = [_Read, _Read]
_BATCH = _KERNEL + [_Model, _Schedule, c_bool, _Decimal, c_size_t, _Read, _Lent]
_BARRIER_BATCH = _KERNEL + [_Model, _Schedule, _Decimal, _Decimal, c_size_t, _Read, _Lent]
_CALLS = {
    "qrh_convert": (_Conversion, [_Decimal]),
    "qrh_sqrt": (c_double, [c_double]),
    "qrh_trace": (_Tracing, _KERNEL + [_Model, _Schedule, _Read, _Lent, _Lent, _Lent, _Lent]),
    "qrh_vanilla": (_Estimate, _BATCH),
    "qrh_mirrored": (_Estimate, _BATCH),
    "qrh_down_and_out": (_Estimate, _BARRIER_BATCH),
    "qrh_mirrored_down_and_out": (_Estimate, _BARRIER_BATCH),
    "qrh_vix": (_VixValue, _KERNEL + [_Model, _Decimal, _Factors, _Lent]),
    "qrh_vix_batch": (
        _VixEstimate,
        _KERNEL + [_Model, _Schedule, _Decimal, _VixPayoff, c_size_t, _Read, _Lent, _Lent]),
    "qrh_exponential": (_Exponentiation, [c_size_t, _Read, _Lent, _Lent]),
}


def _load():
    here = _File(__file__).resolve().parent
    places = [here / "libqrh.so", here.parent.parent / "target" / "python" / "libqrh.so"]
    if "QRH_SHARED" in os.environ:
        places = [_File(os.environ["QRH_SHARED"])]
    for place in places:
        if place.exists():
            library = ctypes.CDLL(str(place))
            break
    else:
        raise ImportError(
            "libqrh.so is not there: clients/python/build.sh makes it, "
            "and QRH_SHARED names another place")
    calls = {}
    for name, (answer, parameters) in _CALLS.items():
        call = getattr(library, name)
        call.restype = answer
        call.argtypes = []
        for parameter in parameters:
            if parameter in (_Read, _Lent):
                call.argtypes += [POINTER(c_double), c_size_t]
            else:
                call.argtypes += [parameter]
        calls[name] = call
    return calls


_library = _load()


class Refusal(ValueError):
    """The core refused a call.

    number    which question was answered No (1 to 28)
    place     where, as far as the number has a place: counted from 1
    steps     the steps taken, at 22 and at 23 to 25 of a batch; else None
    sentence  what was wrong with the input
    """

    def __init__(self, number, place=(), steps=None):
        self.number = number
        self.place = tuple(place)
        self.steps = steps
        self.sentence = _sentence(number, self.place)
        super().__init__(f"{self.sentence} (refusal {number})")

    def __reduce__(self):
        return Refusal, (self.number, self.place, self.steps)


_SENTENCES = {
    1: "a Decimal that is not zero has more than 28 decimal places",
    2: "there are no weights, or more than 10",
    3: "there are not as many discounts as weights",
    4: "{table} {1} is outside 2^-90 to 2^90",
    5: "a is below zero",
    6: "c is not above zero",
    7: "lambda is not above zero",
    8: "eta is not above zero",
    9: "the spot is not above zero",
    10: "there are not as many factors as weights",
    11: "the schedule has no segment",
    12: "the schedule has more than 64 segments",
    13: "segment {0} has no steps, or a dt that is not above zero",
    14: "the segments up to segment {0} have more than 4,096 steps",
    15: "the window is not above zero",
    16: "the workspace is not exactly 5 x dimension^2 doubles long",
    17: "the norm of the matrix, twice the norm or an entry of its exponential is not finite",
    18: "the strike is below zero",
    19: "there are not 2 to 65,536 paths, or in a mirrored batch not an even number of them",
    20: "there are not exactly as many draws as needed",
    21: "a table is not exactly as long as needed",
    22: "the {quantity} of path {0} is not finite after step {1} (steps taken: {3})",
    23: "the VIX squared{of_path} is not finite",
    24: "the VIX squared{of_path} is not above zero",
    25: "{estimate} is not finite",
    26: "the dimension is not 1 to 67, or a matrix is not exactly dimension^2 doubles long",
    27: "the barrier is not above zero",
    28: "there are fewer than 4 paths in a mirrored batch",
}

# How many numbers a place has.
_PLACES = {4: 2, 13: 1, 14: 1, 22: 4, 23: 1, 24: 1, 25: 1}

_TABLES = {1: "weight", 2: "discount"}
_QUANTITIES = {1: "spot", 2: "z", 3: "variance"}
_ESTIMATES = {
    1: "the mean payoff",
    2: "the standard error of the payoff",
    3: "the mean of the terminal spot or index",
    4: "the standard error of the terminal spot or index",
}


def _sentence(number, place):
    if number not in _SENTENCES:
        return "the core refused the input for a reason that this client does not know"
    names = {}
    if number == 4:
        names["table"] = _TABLES.get(place[0], "entry")
    if number == 22:
        names["quantity"] = _QUANTITIES.get(place[2], "state")
    if number in (23, 24):
        names["of_path"] = f" of path {place[0]}" if place else ""
    if number == 25:
        names["estimate"] = _ESTIMATES.get(place[0], "an estimate")
    return _SENTENCES[number].format(*place, **names)


def _answered(answer):
    """The answer, or its Refusal."""
    number = answer.number
    if number == 0:
        return answer
    # A number that is not known keeps its whole place.
    place = tuple(answer.place)[:_PLACES.get(number, 0) if number in _SENTENCES else 4]
    # A VIX evaluation has no path, and no steps.
    if number in (23, 24) and place == (0,):
        place = ()
    steps = getattr(answer, "steps", None) if 22 <= number <= 25 else None
    raise Refusal(number, place, steps)


# Inputs.

def _decimal(value):
    """A Decimal as the core has it: a coefficient of 96 bits, a scale up to 255; or ValueError."""
    if isinstance(value, float):
        raise TypeError("a float is not a Decimal: write it as a str, or as decimal.Decimal")
    value = Decimal(value)
    if not value.is_finite():
        raise ValueError(f"{value} is not a number that a Decimal holds")
    sign, digits, exponent = value.as_tuple()
    coefficient = int("".join(map(str, digits)))
    scale = max(0, -exponent)
    # 2^96 has 29 digits.
    if coefficient and 0 < exponent:
        coefficient = coefficient * 10**exponent if exponent < 29 else 1 << 96
    if coefficient >> 96 or scale > 255:
        raise ValueError(f"{value} has more than 96 bits, or more than 255 decimal places")
    return _Decimal(coefficient & (2**64 - 1), coefficient >> 64, scale, bool(sign))


def _count(name, value, bits=64):
    value = operator.index(value)
    if not 0 <= value < 1 << bits:
        raise ValueError(f"{name} is {value}, which is not a number of {bits} bits")
    return value


def _ten(factors):
    """A number of factors, and the first ten. More are refused by 10 before they are read."""
    given = [_decimal(factor) for factor in factors]
    return len(given), (_Decimal * 10)(*given[:10])


def _is_doubles(view):
    return view.format in ("d", "@d", "=d", "<d") and view.c_contiguous


def _pointer(view):
    """A slice for the core: the address of the first double, and how many there are."""
    length = view.nbytes // 8
    return (byref(c_double.from_buffer(view)) if length else None), length


def _read(values):
    """A slice that the core reads: where it lies if a writable buffer of doubles, else a copy."""
    if isinstance(values, (bytes, bytearray, str)):
        raise TypeError("bytes are not doubles: use array.array('d'), or memoryview(...).cast('d')")
    try:
        view = memoryview(values)
    except TypeError:
        view = memoryview(array("d", values))
    if not _is_doubles(view):
        view = memoryview(array("d", (float(value) for value in values)))
    elif view.readonly:
        view = memoryview(array("d", view.tobytes()))
    return _pointer(view)


def _lent(name, table, length):
    """A slice that the core writes, and its table; made of zeros where none is lent."""
    if table is None:
        table = array("d", bytes(8 * length))
    view = memoryview(table)
    if not _is_doubles(view) or view.readonly:
        raise TypeError(
            f"{name} must be a writable buffer of doubles in one piece, as array.array('d')")
    return _pointer(view), table


class Segment(NamedTuple):
    """`steps` steps of `dt` years each. A plain pair does as well."""

    dt: object
    steps: int


def _schedule(segments):
    """The schedule for the core, its segments and its steps; both 0 where 12 to 14 refuse it."""
    segments = list(segments)
    schedule = _Schedule(count=len(segments))
    total = 0
    for i, (dt, steps) in enumerate(segments[:64]):
        steps = _count("the number of steps", steps, 32)
        schedule.segments[i] = _Segment(_decimal(dt), steps)
        total += steps
    if len(segments) > 64 or total > 4096:
        return schedule, 0, 0
    return schedule, len(segments), total


class Model:
    """The kernel tables of n weights and n discounts, the parameters and the n initial factors.

    variance = a * (z - b)^2 + c, where z is the sum of weight * factor.
    """

    def __init__(self, weights, discounts, *, a, b, c, lambda_, eta, spot, factors):
        self.weights = array("d", weights)
        self.discounts = array("d", discounts)
        count, ten = _ten(factors)
        given = (_decimal(value) for value in (a, b, c, lambda_, eta, spot))
        self._inputs = _Model(*given, count, ten)
        self._initial = _Factors(count, ten)

    def _arguments(self):
        return *_read(self.weights), *_read(self.discounts), self._inputs


@dataclass(frozen=True)
class Call:
    """Pays what the spot, or the index, is above the strike."""

    strike: object


@dataclass(frozen=True)
class Put:
    """Pays what the spot, or the index, is below the strike."""

    strike: object


@dataclass(frozen=True)
class DownAndOut:
    """A put on the spot, worth nothing on a path whose lowest spot is at or below the barrier.

    The lowest spot is that of every point, the start included.
    """

    strike: object
    barrier: object


class _Future:
    def __repr__(self):
        return "FUTURE"


FUTURE = _Future()
"""Pays the VIX."""


def _style(payoff):
    if not isinstance(payoff, (Call, Put)):
        raise TypeError(f"{payoff!r} is no payoff of this call")
    return isinstance(payoff, Put), _decimal(payoff.strike)


# Answers.

class Path(NamedTuple):
    """A traced path: tables of N + 1 doubles, the start first, and factors of (N + 1) x n."""

    steps: int
    spots: object
    variances: object
    z: object
    factors: object


class Estimate(NamedTuple):
    """Of a batch on the spot.

    `observations` has the spots at segments' ends: a row a path, a column a segment.
    """

    price: float
    price_error: float
    spot_mean: float
    spot_error: float
    paths: int
    non_positive: int
    steps: int
    observations: object


class Vix(NamedTuple):
    """VIX squared, and its root, the index in points."""

    squared: float
    index: float


class VixEstimate(NamedTuple):
    """Of a VIX batch. `observations` has the VIX squared at the end of each segment, unchecked."""

    payoff: float
    payoff_error: float
    index: float
    index_error: float
    paths: int
    steps: int
    observations: object


class Exponential(NamedTuple):
    """The exponential of a matrix, row by row, and how often the scaled matrix was squared."""

    output: object
    squarings: int


def _values(answer):
    return tuple(getattr(answer, name) for name, _ in answer._fields_[2:])


# Calls.

def convert(value):
    """The double that is nearest to a Decimal, ties to even."""
    return _answered(_library["qrh_convert"](_decimal(value))).value


def sqrt(x):
    """The double that is nearest to the exact root of x; a NaN where x is a NaN or below zero."""
    return _library["qrh_sqrt"](x)


def trace(model, schedule, draws, *, spots=None, variances=None, z=None, factors=None):
    """One path, from N draws. At refusal 22 lent tables hold the points before the failing step."""
    schedule, _, total = _schedule(schedule)
    points = total + 1
    tables = [
        _lent("spots", spots, points),
        _lent("variances", variances, points),
        _lent("z", z, points),
        _lent("factors", factors, points * min(10, len(model.weights))),
    ]
    slices = [word for pair, _ in tables for word in pair]
    answer = _answered(_library["qrh_trace"](*model._arguments(), schedule, *_read(draws), *slices))
    return Path(answer.steps, *(table for _, table in tables))


def _batch(name, barrier_name, model, schedule, payoff, paths, draws, observations):
    if isinstance(payoff, DownAndOut):
        name, terms = barrier_name, (_decimal(payoff.strike), _decimal(payoff.barrier))
    else:
        terms = _style(payoff)
    schedule, segments, _ = _schedule(schedule)
    paths = _count("the number of paths", paths)
    pair, table = _lent("observations", observations, paths * segments if paths <= 65536 else 0)
    answer = _answered(
        _library[name](*model._arguments(), schedule, *terms, paths, *_read(draws), *pair))
    return Estimate(*_values(answer), table)


def vanilla(model, schedule, payoff, paths, draws, *, observations=None):
    """The price of a Call, Put or DownAndOut on the spot, from paths x N draws, path by path."""
    return _batch(
        "qrh_vanilla", "qrh_down_and_out", model, schedule, payoff, paths, draws, observations)


def mirrored(model, schedule, payoff, paths, draws, *, observations=None):
    """The same over mirrored paths: every second one takes the draws of the one before, negated.

    Such a pair is one sample: means and errors are those of the averages (first + second) / 2.
    """
    return _batch(
        "qrh_mirrored", "qrh_mirrored_down_and_out", model, schedule, payoff, paths, draws,
        observations)


def workspace_length(n):
    """The doubles of workspace that the VIX calls need for n factors: 5 x dimension^2."""
    return 5 * (n + n * (n + 1) // 2 + 2) ** 2


def _workspace(model, workspace):
    n = len(model.weights)
    return _lent("workspace", workspace, workspace_length(n) if n <= 10 else 0)[0]


def vix(model, window, factors=None, *, workspace=None):
    """The VIX over a window of years at the given factors, or at the initial ones."""
    given = model._initial if factors is None else _Factors(*_ten(factors))
    answer = _answered(
        _library["qrh_vix"](
            *model._arguments(), _decimal(window), given, *_workspace(model, workspace)))
    return Vix(*_values(answer))


def vix_batch(model, schedule, window, payoff, paths, draws, *, workspace=None, observations=None):
    """The price of FUTURE, a Call or a Put on the VIX, from paths x N draws, path by path."""
    if payoff is FUTURE:
        payoff = _VixPayoff(future=True)
    else:
        payoff = _VixPayoff(False, *_style(payoff))
    schedule, segments, _ = _schedule(schedule)
    paths = _count("the number of paths", paths)
    pair, table = _lent("observations", observations, paths * segments if paths <= 65536 else 0)
    answer = _answered(
        _library["qrh_vix_batch"](
            *model._arguments(), schedule, _decimal(window), payoff, paths, *_read(draws),
            *_workspace(model, workspace), *pair))
    return VixEstimate(*_values(answer), table)


def exponential(dimension, matrix, *, output=None, workspace=None):
    """The exponential of a square matrix, given row by row."""
    dimension = _count("the dimension", dimension)
    entries = dimension * dimension if dimension <= 67 else 0
    pair, table = _lent("output", output, entries)
    work, _ = _lent("workspace", workspace, 5 * entries)
    answer = _answered(_library["qrh_exponential"](dimension, *_read(matrix), *pair, *work))
    return Exponential(table, answer.squarings)

"""Pochahuic from Python: the proved calls of a WHP-Exchange file, by ctypes over libpochahuic.so (bindings/python/run builds it).

    import pochahuic
    file = pochahuic.File(open("a_hy1.csv", "rb").read())      # raises Refused where the file is refused
    file.values("SALNTY")                                       # a list of floats, None where a reading is missing; never NaN
    file.flags("SALNTY")                                        # its flags, from the column SALNTY_FLAG_W
    file.column("SALNTY")                                       # the number of the column, for the calls on single cells
    file.decimal(2, file.column("SALNTY"))
    list(file.walk())                                           # every cell with its row and column, row by row from the left
    file.correct(2, file.column("SALNTY"), 35_130_100, decimals=4, flag=2)
    open("b_hy1.csv", "wb").write(file.bytes())

Rows, columns, profiles and headers count from 1. Every call but `column` checks the whole file first; `walk` does so once for all its cells.
"""

import ctypes
import operator
import os
from array import array
from collections import namedtuple

MESSAGES = [
    "",
    "more than 8,192 bytes in the line",
    "no line feed at the end of the last line",
    "bytes that are no UTF-8",
    "a carriage return",
    "a control byte",
    "a byte order mark at the start of the file",
    "line 1 is neither BOTTLE nor CTD",
    "no header where one is due: no '=', a bad name or a bad NUMBER_HEADERS",
    "a name that stands there twice",
    "a bad column name",
    "more than 256 columns",
    "a flag column without its parameter",
    "a required name is absent",
    "the file ends where a line is due",
    "not as many cells as there are names",
    "not of the kind that the column or header asks",
    "blank where a value is asked",
    "a value out of its range, or a flag that is not in the set",
    "END_DATA with no data line before it",
    "more than 1,000,000 data lines",
    "no such row, column, profile, header or name",
    "the column is not of the kind that is read or corrected",
    "more than 6 decimals, a size of 10^9 or more, or not exact in the decimals",
    "a flag that is not in the set, or not 0 where there is no flag column",
    "the text is longer than its cell",
    "a malformed line of a correction list",
    "",
    "",
    "a lent table is too short for the rows",
]

_number, _bytes, _length = ctypes.c_uint64, ctypes.c_void_p, ctypes.c_size_t
_millionths, _value, _out = ctypes.POINTER(ctypes.c_int64), ctypes.POINTER(ctypes.c_double), ctypes.POINTER(ctypes.c_uint64)


def _load():
    here = os.path.dirname(os.path.abspath(__file__))
    path = os.environ.get("POCHAHUIC_SO", os.path.join(here, "..", "..", "target", "bindings", "libpochahuic.so"))
    library = ctypes.CDLL(path)
    for name, arguments in {
        "check": [_bytes, _length, _out],
        "cell": [_bytes, _length, _number, _number, _out],
        "decimal": [_bytes, _length, _number, _number, _millionths, _value, _out],
        "flag": [_bytes, _length, _number, _number, _out],
        "profile": [_bytes, _length, _number, _out],
        "station": [_bytes, _length, _number, _bytes, _length, _out],
        "correct": [_bytes, _length, _number, _number, ctypes.c_int64, _number, _number, _out],
        "list_line": [_bytes, _length, _millionths, _out],
        "open": [_bytes, _length, _out],
        "column_in": [_bytes, _length, _length, _bytes, _length],
        "name": [_bytes, _length, _number, _out],
        "unit": [_bytes, _length, _number, _out],
        "header": [_bytes, _length, _number, _out],
        "column_values": [_bytes, _length, _number, _bytes, _length, _bytes, _length, _bytes, _length, _out],
        "column_flags": [_bytes, _length, _number, _bytes, _length, _out],
        "walk_open": [_bytes, _length, _out],
        "walk_next": [_bytes, _length, _out],
    }.items():
        call = getattr(library, "pochahuic_" + name)
        call.argtypes, call.restype = arguments, ctypes.c_uint64
    return library


_library = _load()


class Refused(Exception):
    """A refusal: number, line and column; line and column are 0 where the refusal has no place in the file."""

    def __init__(self, number, line, column):
        self.number, self.line, self.column = number, line, column
        place = "line %d, column %d: " % (line, column) if line else ""
        super().__init__("%s%s (%d)" % (place, MESSAGES[number], number))


Checked = namedtuple("Checked", "kind columns rows profiles missing")
Profile = namedtuple("Profile", "first rows castno date time")
Correction = namedtuple("Correction", "row name millionths decimals flag")
Opened = namedtuple("Opened", "checked headers names first")
Tables = namedtuple("Tables", "cases millionths values")
Cell = namedtuple("Cell", "row column text")

# The cases of a table of readings.
PRESENT, MISSING = 0, 1


def _checked(kind, *counts):
    return Checked({1: "BOTTLE", 2: "CTD"}[kind], *counts)


def _lent(data):
    """The bytes in memory of their own: one byte more than there are, so that the pointer is good for an empty text too."""
    return ctypes.create_string_buffer(data, len(data) + 1)


def _table(code, rows):
    """An array of a zero for each row, of the numbers that the letter stands for."""
    return array(code, [0]) * rows


def _within(least, below, *numbers):
    """The numbers as Python's own; ctypes would cut one that does not fit to 64 bits."""
    numbers = [operator.index(number) for number in numbers]
    for number in numbers:
        if not least <= number < below:
            raise OverflowError("%d does not fit 64 bits" % number)
    return numbers


def _unsigned(*numbers):
    return _within(0, 2**64, *numbers)


class File:
    """A file in memory, accepted by the check when it is made. For one thread at a time."""

    def __init__(self, data):
        data = bytes(data)
        self._length, self._data = len(data), _lent(data)
        self._opened = self.open()  # a correction leaves its counts but the missing readings, and its places

    def bytes(self):
        return self._data.raw[: self._length]

    def _call(self, name, size, *arguments):
        out = (ctypes.c_uint64 * size)()
        if getattr(_library, "pochahuic_" + name)(self._data, self._length, *arguments, out) != 0:
            raise Refused(*out[:3])
        return out[3:]

    def check(self):
        """The kind, "BOTTLE" or "CTD", and the counts."""
        return _checked(*self._call("check", 8))

    def cell(self, row, column):
        """The bytes of a cell, without the spaces at its ends."""
        return self._part(*self.place(row, column))

    def place(self, row, column):
        """Where that cell stands: its start, from 0, and its length."""
        return tuple(self._call("cell", 5, *_unsigned(row, column)))

    def _part(self, start, length):
        return self._data[start : start + length]

    def millionths(self, row, column):
        """A decimal in millionths, exactly; None where the reading is missing."""
        return self._reading(row, column)[0]

    def decimal(self, row, column):
        """A decimal as a float; None where the reading is missing."""
        return self._reading(row, column)[1]

    def _reading(self, row, column):
        millionths, value, out = ctypes.c_int64(), ctypes.c_double(), (ctypes.c_uint64 * 3)()
        reading = _library.pochahuic_decimal(self._data, self._length, *_unsigned(row, column), millionths, value, out)
        if reading == 2:
            raise Refused(*out)
        return (millionths.value, value.value) if reading == 0 else (None, None)

    def flag(self, row, column):
        """A flag; the column is the flag column itself."""
        return self._call("flag", 4, *_unsigned(row, column))[0]

    def profile(self, k):
        """The record of profile k; its time is (hour, minute), or None where it is missing."""
        first, rows, castno, date, given, hour, minute = self._call("profile", 10, *_unsigned(k))
        return Profile(first, rows, castno, date, (hour, minute) if given else None)

    def station(self, k, name):
        """The bytes of a station value of profile k, without the spaces at its ends."""
        name = name.encode()
        return self._part(*self._call("station", 5, *_unsigned(k), _lent(name), len(name)))

    def correct(self, row, column, millionths, decimals, flag):
        """Makes one correction; a refused one changes nothing."""
        self._call("correct", 3, *_unsigned(row, column), *_within(-(2**63), 2**63, millionths), *_unsigned(decimals, flag))

    def open(self):
        """The check's answer, and where the headers, the names line and the first data line start; the first two are the same where there are no headers."""
        *counts, headers, names, first = self._call("open", 11)
        return Opened(_checked(*counts), headers, names, first)

    def column(self, name):
        """The number of the column of that name, which is compared as it is; Refused with 21 where there is none. It costs no check of the file."""
        name = name.encode()
        column = _library.pochahuic_column_in(self._data, self._length, self._opened.names, _lent(name), len(name))
        if column == 0:
            raise Refused(21, 0, 0)
        return column

    def name(self, column):
        """The name of a column."""
        return self._part(*self._call("name", 5, *_unsigned(column))).decode()

    def unit(self, column):
        """The unit of a column; it may be empty."""
        return self._part(*self._call("unit", 5, *_unsigned(column))).decode()

    def header(self, k):
        """The name and the value of header k of a CTD file; header 1 is NUMBER_HEADERS. A bottle file has none: Refused with 21."""
        start, length, value_start, value_length = self._call("header", 7, *_unsigned(k))
        return self._part(start, length).decode(), self._part(value_start, value_length).decode()

    def names(self):
        """The names of all columns, in order; one call for each."""
        return [self.name(column) for column in range(1, self._opened.checked.columns + 1)]

    def units(self):
        """The units of all columns, in order; one call for each."""
        return [self.unit(column) for column in range(1, self._opened.checked.columns + 1)]

    def headers(self):
        """The headers of a CTD file, the values by their names, in order; empty for a bottle file."""
        if self._opened.checked.kind != "CTD":
            return {}
        count = int(self.header(1)[1])
        return dict(self.header(k) for k in range(1, count + 1))

    def values(self, column):
        """The readings of a whole column, by its name or number: a float for each row, None where it is missing."""
        tables = self.tables(column)
        return [value if case == PRESENT else None for case, value in zip(tables.cases, tables.values)]

    def exact_values(self, column):
        """The same in millionths, exactly."""
        tables = self.tables(column)
        return [number if case == PRESENT else None for case, number in zip(tables.cases, tables.millionths)]

    def tables(self, column):
        """The same as three arrays, row 1 first, which numpy.frombuffer takes without a copy: cases (PRESENT or MISSING), millionths, values.
        Both numbers are 0 where a reading is missing, so look at its case."""
        column = self.column(column) if isinstance(column, str) else column
        rows = self._opened.checked.rows
        tables = Tables(_table("B", rows), _table("q", rows), _table("d", rows))
        cases, millionths, values = (table.buffer_info() for table in tables)
        self._call("column_values", 4, *_unsigned(column), *cases, *millionths, *values)
        return tables

    def flags(self, column):
        """The flags of a whole column, one for each row: by the name of the parameter, whose flags stand in the column NAME_FLAG_W, or by the number
        of the flag column itself."""
        column = self.column(column + "_FLAG_W") if isinstance(column, str) else column
        flags = _table("B", self._opened.checked.rows)
        self._call("column_flags", 4, *_unsigned(column), *flags.buffer_info())
        return list(flags)

    def walk(self):
        """The cells of the whole file as a generator, row by row from the left, each once: Cell(row, column, text), the text as `cell` gives it. The file is
        checked once, before the first. A correction made while walking moves no cell: each is given as it stands when it is asked for."""
        cursor = (ctypes.c_uint64 * 10)(0, 0, 0, *self._call("walk_open", 10))
        while cursor[5] != 0:
            yield Cell(cursor[5], cursor[6], self._part(*cursor[3:5]))
            _library.pochahuic_walk_next(self._data, self._length, cursor)


def read_list_line(line):
    """One line of a correction list, with its line feed."""
    millionths, out = ctypes.c_int64(), (ctypes.c_uint64 * 6)()
    if _library.pochahuic_list_line(_lent(line), len(line), millionths, out) != 0:
        raise Refused(out[0], 0, 0)
    return Correction(out[1], line[out[2] : out[2] + out[3]].decode(), millionths.value, out[4], out[5])

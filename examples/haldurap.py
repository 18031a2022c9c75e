"""The calls of haldurap.h for Python, by ctypes over a shared object linked from the archive:

    gcc -shared -o target/libhaldurap.so -Wl,--whole-archive target/libhaldurap.a -Wl,--no-whole-archive

The shared object is the one that the environment variable HALDURAP names, else target/libhaldurap.so of this
repository. What each call gives is described in include/haldurap.h.

A refusal raises Refused with its number. What is no argument at all (eleven temperatures, a number beyond 64 bits,
a float or a text where a whole number is wanted) raises ValueError with the argument's name: ctypes alone would cut
such a number to 64 bits, or fill up with zeros, and say nothing.
"""
import ctypes
import operator
import os
from collections import namedtuple
from ctypes import POINTER, Structure, c_double, c_int64, c_size_t, c_uint8, c_uint64

LAYOUT = 7
MOST_RECORDS = 5000
MOST_TEXT = 65536
LINE_BYTES = 97
REPORT_BYTES = 1455
REFUSED_BYTES = 17
HEAD_BYTES = 66
DATED_HEAD_BYTES = 84
RECORD_BYTES = 41
RECORD_NUMBERS = 9
AREAS = 16
AREA_RECORDS = 300
COMMON_RECORDS = 200
AREAS_NUMBERS = 2737
GASOLINE, DIESEL, LPG = FUELS = (1, 2, 3)
CO, NOX, VOC, PM, FC = QUANTITIES = (1, 2, 3, 4, 5)
KINDS = ("urban", "rural", "highway", "cold")
ROADS = KINDS[:3]
(TAKEN, TRIP_LENGTH, TEMPERATURE, CLASS, VEHICLES, KILOMETRES, DISTANCE, SHARES, SPEED, FULL, LINE_SHAPE, FUEL_OR_QUANTITY,
 NO_FUEL_USED, SOLD_FUEL, SHORT_BUFFER, FUEL_CONTENT, RUN_ORDER, NO_AREA, FULL_AREA, NO_DAY, DAY_ORDER, HEADS_DIFFER,
 FULL_TOGETHER) = range(23)

# What each number means, and what to do about it.
MEANINGS = {
    TRIP_LENGTH: "the mean trip length is not 10 to 200; give it in tenths of km (12 km are 120)",
    TEMPERATURE: "a temperature is not -300 to 400; give it in tenths of a degree Celsius (10 degrees are 100)",
    CLASS: "the class is not 1 to 7; other classes are not in this inventory",
    VEHICLES: "vehicles are not 1 to 1,000,000; leave out a record without vehicles, split a larger one",
    KILOMETRES: "km per vehicle are not 1 to 999,999; give the km of one vehicle, not of the fleet",
    DISTANCE: "vehicles x km is over 1,000,000,000; split the record into several",
    SHARES: "a share is over 100, or the three do not add up to 100; give whole percent",
    SPEED: "a speed is not 10 to 130 km/h; give one for each road, also where its share is 0",
    FULL: "the run has 5,000 records, and takes no more; open another run and add up the figures",
    LINE_SHAPE: "a line of the sheet has a wrong shape, or a list is not of whole records; see the widths of the columns"
                " (numbers right-justified with spaces, no leading zeros, LF at the end of each line), and nine numbers a record",
    FUEL_OR_QUANTITY: "the fuel is not 1 to 3, or the quantity not 1 to 5",
    NO_FUEL_USED: "no fuel of this kind is used in the run, so there is nothing to balance; leave this fuel out",
    SOLD_FUEL: "sold fuel is over 999,999,999 t, or sold over used fuel is not 0.5 to 1.5; give tonnes, and look"
               " for what the fleet or the sales leave out",
    SHORT_BUFFER: "the buffer is shorter than the text; 1,455 bytes are always enough",
    FUEL_CONTENT: "hydrogen per carbon is over 4,000 thousandths, sulphur over 10,000 ppm or lead over 1,000 ppm",
    RUN_ORDER: "a run or the areas are not in order: never opened, or damaged, or runs of several heads put into areas; take runs"
               " from open_run, add, join, add_list, sheet and area_run alone, areas from open_areas, and change areas by add_area alone",
    NO_AREA: "the area is not 0 to 15; areas are numbered from 0, and sixteen stand under one head",
    FULL_AREA: "the area has 300 records or more, and the 200 that all areas share are used; add the rest of this area to a run of"
               " its own (open_run), and add up the figures",
    NO_DAY: "the first or the last day of the period is no day of the years 1980 to 2100; write both as year x 10,000 + month x 100"
            " + day (15 May 2026 is 20260515), or leave both out for a head without dates",
    DAY_ORDER: "the last day of the period is before the first, or in another year; give the first day first, and split a period"
               " over the turn of a year into two runs, and add up the figures",
    HEADS_DIFFER: "the trip length or a cold-start value X of the two runs differs; open both with the same head before records are"
                  " added, or keep them apart and add up the figures",
    FULL_TOGETHER: "the two runs have more than 5,000 records together, and one run takes no more; keep them apart, and add up the"
                   " figures",
}


class Refused(Exception):
    """A refusal: its number, and for a sheet its line from 1. Its text says what the number means and what to do."""

    def __init__(self, number, line=None):
        where = "" if line is None else " at line %d" % line
        super().__init__("refused with %d%s: %s" % (number, where, MEANINGS.get(number, "a number that this module does not know")))
        self.number, self.line = number, line

    def __reduce__(self):
        return Refused, (self.number, self.line)


# What add_list gives: the run, how many records were taken, the place (from 1) and the number of the first refused one.
ListAdded = namedtuple("ListAdded", "run taken place refused")
# What balance gives: k in millionths, the digits worked to find it, the balanced total in grams.
Balance = namedtuple("Balance", "k digits grams")
# What report_sheet gives: the text, and the sheet's own number (0: taken) and line.
SheetText = namedtuple("SheetText", "text number line")


# ---- Arguments

def _whole(name, value, signed=False):
    """A whole number of 64 bits, or ValueError."""
    if isinstance(value, bool) or not hasattr(type(value), "__index__"):
        raise ValueError("%s: a whole number is wanted, %r given" % (name, value))
    number = operator.index(value)
    low, high = (-2**63, 2**63 - 1) if signed else (0, 2**64 - 1)
    if not low <= number <= high:
        wanted = "is not a 64-bit number" if signed or number > high else "is negative, and a number from 0 is wanted"
        raise ValueError("%s: %d %s" % (name, number, wanted))
    return number


def _several(name, values, count, wanted, kind=c_uint64):
    """Exactly so many values of a kind, or ValueError."""
    items = _items(name, values, wanted)
    if len(items) != count:
        raise ValueError("%s: %s are wanted, %d given" % (name, wanted, len(items)))
    return [_value(name, item, kind) for item in items]


def _value(name, value, kind):
    """A whole number of 64 bits where the kind is one, else a value of a class of this module; or ValueError."""
    return _whole(name, value, kind is c_int64) if kind in (c_uint64, c_int64) else _of(name, value, kind)


def _items(name, values, wanted):
    """What a list, a tuple, an array or any other row of values holds, or ValueError."""
    try:
        if isinstance(values, (str, bytes, bytearray)):
            raise TypeError
        return list(values)
    except TypeError:
        raise ValueError("%s: %s are wanted, %r given" % (name, wanted, values)) from None


def _of(name, value, kind):
    """A value of a class of this module, or ValueError."""
    if not isinstance(value, kind):
        article = "an" if kind.__name__[0] in "AEIOU" else "a"
        raise ValueError("%s: %s %s is wanted, %r given" % (name, article, kind.__name__, value))
    return value


def _bytes(name, data):
    """Bytes as an array of their own, never null, and their length; or ValueError."""
    if not isinstance(data, (bytes, bytearray, memoryview)):
        raise ValueError("%s: bytes are wanted, %s given" % (name, type(data).__name__))
    data = bytes(data)
    return (c_uint8 * max(len(data), 1)).from_buffer_copy(data or b"\0"), len(data)


# ---- Structs

class _Array:
    """An array that takes nothing but values of its kind (of numbers whole ones of 64 bits), and is filled whole."""

    def __init__(self, *values):
        super().__init__(*_several(self.name, values, self._length_, self.wanted, self._type_))

    def __setitem__(self, at, value):
        if isinstance(at, slice):
            value = [_value(self.name, one, self._type_) for one in _items(self.name, value, self.wanted)]
        else:
            value = _value(self.name, value, self._type_)
        super().__setitem__(at, value)


def _array(kind, length, its_name, wanted=None):
    """Such an array as the field of a struct."""
    return type(its_name, (_Array, kind * length), {"name": its_name, "wanted": wanted or "%d numbers" % length})


class _Numbers(Structure):
    """A struct that takes no number that is not a whole one of 64 bits."""

    def __setattr__(self, name, value):
        kind = dict(self._fields_).get(name)
        if kind is None:
            fields = ", ".join(field for field, _ in self._fields_)
            raise AttributeError("%s has no field %s; its fields are %s" % (type(self).__name__, name, fields))
        if kind in (c_uint64, c_int64):
            value = _whole(name, value, kind is c_int64)
        elif issubclass(kind, _Array):
            value = kind(*_several(name, value, kind._length_, kind.wanted, kind._type_))
        elif not isinstance(value, kind):
            value = kind(*_several(name, value, 3, "three (urban, rural, highway)"))
        super().__setattr__(name, value)


class Head(_Numbers):
    # first and last are 0 and 0 for a head without dates
    _fields_ = [("trip", c_uint64), ("temps", _array(c_int64, 12, "temps", "twelve temperatures")), ("first", c_uint64), ("last", c_uint64)]

    def __init__(self, trip, temps, first=0, last=0):
        super().__init__(trip, temps, first, last)


class Shares(_Numbers):
    _fields_ = [("urban", c_uint64), ("rural", c_uint64), ("highway", c_uint64)]

    def __init__(self, urban, rural, highway):
        super().__init__(urban, rural, highway)


class Speeds(_Numbers):
    _fields_ = [("urban", c_uint64), ("rural", c_uint64), ("highway", c_uint64)]

    def __init__(self, urban, rural, highway):
        super().__init__(urban, rural, highway)


class Record(_Numbers):
    _fields_ = [("vehicle_class", c_uint64), ("vehicles", c_uint64), ("km", c_uint64), ("shares", Shares), ("speeds", Speeds)]

    def __init__(self, vehicle_class, vehicles, km, shares, speeds):
        super().__init__(vehicle_class, vehicles, km, shares, speeds)

    def numbers(self):
        """The nine numbers of a record, as a list has them."""
        roads = [getattr(part, road) for part in (self.shares, self.speeds) for road in ROADS]
        return [self.vehicle_class, self.vehicles, self.km, *roads]


class Run(_Numbers):
    # The last of x is that of CO of class 3. The totals are by fuel and quantity; each must be the sum of its four kinds, exactly, else
    # the run is refused with 16: whoever writes grams or rests by hand writes their total too.
    _fields_ = [("trip", c_uint64), ("x", _array(c_uint64, 16, "x")), ("count", c_uint64), ("km", _array(c_uint64, 3, "km")),
                ("grams", _array(c_uint64, 60, "grams")), ("rests", _array(c_uint64, 60, "rests")),
                ("total_grams", _array(c_uint64, 15, "total_grams")), ("total_rests", _array(c_uint64, 15, "total_rests"))]


class Areas(_Numbers):
    # runs[i] is the run itself, not a copy, as ctypes gives a struct in a struct; area_run gives a copy
    _fields_ = [("runs", _array(Run, 16, "runs", "sixteen runs")), ("common", c_uint64)]


class RunAnswer(Structure):
    _fields_ = [("number", c_uint64), ("run", Run)]


class GramsAnswer(Structure):
    _fields_ = [("number", c_uint64), ("grams", c_uint64)]


class BalanceAnswer(Structure):
    _fields_ = [("number", c_uint64), ("k", c_uint64), ("digits", c_uint64), ("grams", c_uint64)]


class LengthAnswer(Structure):
    _fields_ = [("number", c_uint64), ("bytes", c_size_t)]


class TextAnswer(Structure):
    _fields_ = [("number", c_uint64), ("bytes", c_size_t), ("sheet_number", c_uint64), ("sheet_line", c_size_t)]


class ListAnswer(Structure):
    _fields_ = [("number", c_uint64), ("taken", c_uint64), ("place", c_size_t), ("refused", c_uint64), ("run", Run)]


class MapRowAnswer(Structure):
    _fields_ = [("number", c_uint64), ("urban", c_double), ("rural", c_double), ("highway", c_double), ("cold", c_double)]


class FigureAnswer(Structure):
    _fields_ = [("number", c_uint64), ("given", c_uint64), ("grams", c_double)]


class SheetAnswer(Structure):
    _fields_ = [("number", c_uint64), ("line", c_size_t), ("run", Run)]


class LayoutAnswer(Structure):
    _fields_ = [("version", c_uint64), ("size", c_uint64)]


_BYTES = POINTER(c_uint8)
_AREAS = POINTER(Areas)
_QUESTION = [Run, c_uint64, c_uint64]
# The calls as C has them: what they take and what they give.
_CALLS = {
    "layout": ([], LayoutAnswer),
    "open": ([Head], RunAnswer),
    "add": ([Run, Record], RunAnswer),
    "join": ([Run, Run], RunAnswer),
    "add_list": ([Head, POINTER(c_uint64), c_size_t], ListAnswer),
    "in_order": ([Run], c_uint64),
    "open_areas": ([_AREAS, c_size_t, Head], c_uint64),
    "add_area": ([_AREAS, c_size_t, c_uint64, Record], c_uint64),
    "area_run": ([_AREAS, c_size_t, c_uint64], RunAnswer),
    "total": (_QUESTION, GramsAnswer),
    "urban": (_QUESTION, GramsAnswer),
    "rural": (_QUESTION, GramsAnswer),
    "highway": (_QUESTION, GramsAnswer),
    "cold": (_QUESTION, GramsAnswer),
    "balance": ([Run, c_uint64, c_uint64, c_uint64], BalanceAnswer),
    "co2": (_QUESTION, GramsAnswer),
    "so2": (_QUESTION, GramsAnswer),
    "lead": (_QUESTION, GramsAnswer),
    "map_row": (_QUESTION, MapRowAnswer),
    "figure_urban": (_QUESTION, FigureAnswer),
    "figure_rural": (_QUESTION, FigureAnswer),
    "figure_highway": (_QUESTION, FigureAnswer),
    "figure_cold": (_QUESTION, FigureAnswer),
    "report": ([Run, _BYTES, c_size_t], LengthAnswer),
    "sheet": ([_BYTES, c_size_t], SheetAnswer),
    "report_sheet": ([_BYTES, c_size_t, _BYTES, c_size_t], TextAnswer),
}

LIBRARY = os.environ.get("HALDURAP") or os.path.join(os.path.dirname(os.path.abspath(__file__)), "..", "target", "libhaldurap.so")
_BUILD = "build it by tools/archive.sh and the gcc command at the top of " + os.path.basename(__file__)
try:
    _lib = ctypes.CDLL(LIBRARY)
except OSError as error:
    raise ImportError("%s cannot be loaded (%s); %s" % (LIBRARY, error, _BUILD)) from None


def _call(name):
    """One of _CALLS as it stands in the shared object. It cuts numbers to 64 bits: the functions below test them first."""
    function = getattr(_lib, "haldurap_" + name)
    function.argtypes, function.restype = _CALLS[name]
    return function


def _taken(answer):
    number = answer if isinstance(answer, int) else answer.number  # some calls answer with the number alone
    if number != 0:
        raise Refused(number)
    return answer


def _ask(name, run, **numbers):
    """The answer to a question about a run."""
    return _taken(_call(name)(_of("run", run, Run), *[_whole(*number) for number in numbers.items()]))


# ---- The calls

def layout():
    """The version of the layout and the size of a run that the archive was built with."""
    answer = _call("layout")()
    return answer.version, answer.size


def head(trip, temps, first=0, last=0):
    """trip in tenths of km, twelve temperatures in tenths of a degree Celsius. For a part of a year its first and its last day,
    both included, as 20260515 for 15 May 2026; without them (or with 0 and 0) all months weigh alike."""
    return Head(trip, temps, first, last)


def record(vehicle_class, vehicles, km, shares, speeds):
    """shares and speeds are (urban, rural, highway)."""
    return Record(vehicle_class, vehicles, km, shares, speeds)


def open_run(a_head):
    """The fresh run of a head. Refuses 1, 2, 19, 20."""
    return _taken(_call("open")(_of("a_head", a_head, Head))).run


def add(run, a_record):
    """The run with the record; the run handed in stays as it is. Refuses 16, 3 to 9."""
    return _taken(_call("add")(_of("run", run, Run), _of("a_record", a_record, Record))).run


def join(first, second):
    """One run of both: count, kilometres, sums and totals added up; the runs handed in stay as they are. L and all X must agree, as of
    runs under one head. The runs of areas may be joined too. Neither order nor grouping matters, and a fresh run of the same head
    changes nothing; a run that is joined with itself has its records twice. Refuses 16, 21, 22."""
    return _taken(_call("join")(_of("first", first, Run), _of("second", second, Run))).run


def add_list(a_head, records):
    """Opens a run and adds the records one after the other; a refused one is passed over. Gives a ListAdded: the run, how
    many were taken, the place (from 1) and the number of the first refused one, 0 and 0 for none. The records may also be
    plain numbers, nine a record. Refuses 10 (not whole records), 1, 2, 19, 20."""
    _of("a_head", a_head, Head)
    numbers = []
    for item in _items("records", records, "records"):
        if isinstance(item, Record):
            numbers += item.numbers()
        else:
            numbers.append(_whole("records", item))
    place = (c_uint64 * max(len(numbers), 1))(*numbers)
    answer = _taken(_call("add_list")(a_head, place, len(numbers)))
    return ListAdded(answer.run, answer.taken, answer.place, answer.refused)


def in_order(run):
    """Whether the run is in order: each value in its range, each total the sum of its four kinds. A value that is wrong and keeps
    this is not seen."""
    return _call("in_order")(_of("run", run, Run)) == 1


def open_areas(a_head):
    """Sixteen fresh areas under a head, as an Areas. While one thread adds to them, no other may use them. Refuses 1, 2,
    19, 20."""
    areas = Areas()
    _taken(_call("open_areas")(areas, AREAS_NUMBERS, _of("a_head", a_head, Head)))
    return areas


def add_area(areas, area, a_record):
    """Adds a record to an area, 0 to 15. Unlike add it changes the areas handed in, and gives the same ones back; refused,
    they stay as they were. Refuses 16, 17, 3 to 8, 18."""
    _of("areas", areas, Areas)
    _taken(_call("add_area")(areas, AREAS_NUMBERS, _whole("area", area), _of("a_record", a_record, Record)))
    return areas


def area_run(areas, area):
    """The run of an area, 0 to 15, of which every question below is asked: a copy, which no later add_area changes.
    Refuses 16, 17."""
    return _taken(_call("area_run")(_of("areas", areas, Areas), AREAS_NUMBERS, _whole("area", area))).run


def total(run, fuel, quantity):
    """The printed total, grams. Refuses 16, 11."""
    return _ask("total", run, fuel=fuel, quantity=quantity).grams


def urban(run, fuel, quantity):
    """The printed hot grams of urban roads. Refuses 16, 11."""
    return _ask("urban", run, fuel=fuel, quantity=quantity).grams


def rural(run, fuel, quantity):
    """The printed hot grams of rural roads. Refuses 16, 11."""
    return _ask("rural", run, fuel=fuel, quantity=quantity).grams


def highway(run, fuel, quantity):
    """The printed hot grams of highways. Refuses 16, 11."""
    return _ask("highway", run, fuel=fuel, quantity=quantity).grams


def cold(run, fuel, quantity):
    """The printed grams of cold starts. Refuses 16, 11."""
    return _ask("cold", run, fuel=fuel, quantity=quantity).grams


def kinds(run, fuel, quantity):
    """The four printed kinds (urban, rural, highway, cold), grams. Refuses 16, 11."""
    return tuple(_ask(kind, run, fuel=fuel, quantity=quantity).grams for kind in KINDS)


def balance(run, fuel, quantity, sold):
    """A Balance: k in millionths, the digits worked to find it, and the balanced total in grams; sold in tonnes. With fewer than
    12 digits k is exactly sold over used fuel; 12 does not tell. Refuses 16, 11, 12, 13."""
    answer = _ask("balance", run, fuel=fuel, quantity=quantity, sold=sold)
    return Balance(answer.k, answer.digits, answer.grams)


def co2(run, fuel, hydrogen):
    """CO2 in grams; hydrogen per carbon in thousandths. Refuses 16, 11, 15."""
    return _ask("co2", run, fuel=fuel, hydrogen=hydrogen).grams


def so2(run, fuel, sulphur):
    """SO2 in grams; sulphur in ppm by mass. Refuses 16, 11, 15."""
    return _ask("so2", run, fuel=fuel, sulphur=sulphur).grams


def lead(run, fuel, content):
    """Lead in grams; content in ppm by mass. Refuses 16, 11, 15."""
    return _ask("lead", run, fuel=fuel, content=content).grams


def map_row(run, fuel, quantity):
    """The four printed kinds as floats, each exactly the whole grams. Refuses 16, 11."""
    answer = _ask("map_row", run, fuel=fuel, quantity=quantity)
    return answer.urban, answer.rural, answer.highway, answer.cold


def figure(run, fuel, quantity, kind):
    """One field of that row (kind is a name of KINDS), or None for "not given" (PM of gasoline and LPG). Refuses 16, 11."""
    if kind not in KINDS:
        raise ValueError("kind: one of %s is wanted, %r given" % (", ".join(KINDS), kind))
    answer = _ask("figure_" + kind, run, fuel=fuel, quantity=quantity)
    return answer.grams if answer.given == 1 else None


def figure_urban(run, fuel, quantity):
    """figure of urban roads."""
    return figure(run, fuel, quantity, "urban")


def figure_rural(run, fuel, quantity):
    """figure of rural roads."""
    return figure(run, fuel, quantity, "rural")


def figure_highway(run, fuel, quantity):
    """figure of highways."""
    return figure(run, fuel, quantity, "highway")


def figure_cold(run, fuel, quantity):
    """figure of cold starts."""
    return figure(run, fuel, quantity, "cold")


def report(run):
    """The report's bytes. Refuses 16."""
    buffer = (c_uint8 * REPORT_BYTES)()
    length = _taken(_call("report")(_of("run", run, Run), buffer, REPORT_BYTES)).bytes
    return bytes(buffer[:length])


def sheet(text):
    """The run of a sheet (bytes). Refuses with number and line."""
    answer = _call("sheet")(*_bytes("text", text))
    if answer.number != 0:
        raise Refused(answer.number, answer.line)
    return answer.run


def report_sheet(text):
    """What the program `report` prints for a sheet (bytes), as a SheetText: the report with number 0 and line 0, or the
    line REFUSED with the sheet's own number and line. Raises no Refused: the number tells whether the sheet was taken."""
    buffer = (c_uint8 * REPORT_BYTES)()
    answer = _taken(_call("report_sheet")(*_bytes("text", text), buffer, REPORT_BYTES))
    return SheetText(bytes(buffer[:answer.bytes]), answer.sheet_number, answer.sheet_line)


# a call may have come without another layout
if not all(hasattr(_lib, "haldurap_" + name) for name in _CALLS) or layout() != (LAYOUT, ctypes.sizeof(Run)):
    raise ImportError("%s is of another version than haldurap.py; %s" % (LIBRARY, _BUILD))

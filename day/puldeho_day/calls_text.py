"""A run written as text, for any grid of the library and all its calls.

    from puldeho_day.calls_text import read_calls

    for call in read_calls(text):
        print(call.line, call.name, call.arguments)

A record is a word and its numbers:

    grid W R K N                        the first record
    load air AMOUNT.. tracers AMOUNT..  before any other call
    CALL NUMBER..                       a call of the library by its name, with its own arguments in their order

for example

    emission TRACER CELL AMOUNT
    zonal LAYER ROW FLUX..
    zonal_with_count LAYER ROW GIVEN FLUX..
    remap A B A B ..
    add_emitter TRACER CELL ID UNITS
    set_limiter TRACER LIMITER LO HI

100*6 is the number 100 six times. # starts a comment. An indented line continues the record above it. The records
between a line `repeat TIMES` and a line `end` stand there as often as it says. Bad text is BadText: `line N: what is wrong`.
"""
import collections
import itertools
import math

import numpy

from puldeho import Grid
from puldeho.calls import MOST_COLUMNS, MOST_LAYERS, MOST_ROWS, MOST_TRACERS, OWN, SIGNATURES, WORLD

from .text import BadText, check_range, divided, load_lists, numbers, text_records

__all__ = ["BadText", "TextCall", "read_calls"]

TextCall = collections.namedtuple("TextCall", "line name arguments")

RECORDS = ("grid", *SIGNATURES)
# The least and the most of a grid's numbers, in their order.
RANGES = {"columns": (4, MOST_COLUMNS), "rows": (1, MOST_ROWS), "layers": (1, MOST_LAYERS), "tracers": (1, MOST_TRACERS)}
# Those of the largest number of 64 bits.
MOST_DIGITS = 20
# What the numbers of a list are called, where it is not the list's name.
LABELS = {"table": "table numbers"}


def number_type(kind):
    """The type of numpy for the numbers of a parameter, such as uint32 for u32 and for &[u32]."""
    number = kind.rpartition("[")[2].rstrip("]")
    return numpy.dtype("%s%d" % (number[0], int(number[1:]) // 8))


def argument(name, kind, shape, found):
    """A whole number, or for a parameter with a shape an array of one dimension, which is read-only: a repeated record has it too."""
    limits = numpy.iinfo(number_type(kind))
    check_range(LABELS.get(name, name), found, limits.min, limits.max)
    values = [value for value, line in found]
    if shape is None:
        return values[0]
    array = numpy.array(values, limits.dtype)
    array.flags.writeable = False
    return array


def read_arguments(name, owner, parameters, words, grid, line):
    """The arguments that the words give for the parameters of a record."""
    shapes = [grid.shape(owner, parameter) for parameter, _ in parameters]
    wanted = [(LABELS.get(parameter, parameter), math.prod(shape or ())) for (parameter, _), shape in zip(parameters, shapes)]
    parts = divided(name, wanted, numbers(words, MOST_DIGITS), line)
    return tuple(argument(*parameter, shape, found) for parameter, shape, found in zip(parameters, shapes, parts))


def read_grid(words, line):
    """The four numbers of a grid that the library has."""
    parts = divided("grid", [(name, 1) for name in RANGES], numbers(words, MOST_DIGITS), line)
    for (name, limits), found in zip(RANGES.items(), parts):
        check_range(name, found, *limits)
    return tuple(value for ((value, line),) in parts)


def read_load(words, grid, line):
    """Air and tracers of a load; each list has a word of its own."""
    lent = [parameter for parameter in SIGNATURES["load"] if parameter[0] not in OWN]
    lists = zip(lent, load_lists(words, line))
    parts = (read_arguments("load", "world", [parameter], listed, grid, start) for parameter, (listed, start) in lists)
    return tuple(itertools.chain(*parts))


def read_record(record, grid):
    """The call of a record."""
    name, words = record.words[0].text, record.words[1:]
    if name == "grid":
        arguments = read_grid(words, record.line)
    elif name == "load":
        arguments = read_load(words, grid, record.line)
    else:
        own = [parameter for parameter in SIGNATURES[name] if parameter[0] not in WORLD]
        arguments = read_arguments(name, name, own, words, grid, record.line)
    return TextCall(record.line, name, arguments)


def check_place(record, before):
    """Fails unless the record may come after those whose names are given: one grid, then a load, then any other call."""
    name = record.words[0].text
    if name == "bytes":
        raise BadText(record.line, "'bytes' is for the runner (tools/run): no call of the library has raw bytes")
    if name not in RECORDS:
        raise BadText(record.line, "'%s' is no record; the records are %s" % (name, ", ".join(RECORDS)))
    if name == "grid" and before:
        raise BadText(record.line, "grid out of place: a second grid")
    if name != "grid" and not before:
        raise BadText(record.line, "%s out of place: no grid yet" % name)
    if name not in ("grid", "load") and "load" not in before:
        raise BadText(record.line, "%s out of place: no load yet" % name)


def read_calls(text):
    """The calls of a text in their order, each with its line, its name and its arguments: w, r, k and n of a grid, air and tracers of
    a load, and of any other call its own. Lists are arrays that cannot be written, so that a load's are to be copied for a World."""
    calls, read, before, grid = [], {}, set(), None
    for record in text_records(text):
        check_place(record, before)
        # A record that is repeated is read once.
        if record.line not in read:
            read[record.line] = read_record(record, grid)
        calls.append(read[record.line])
        if not before:
            grid = Grid(*calls[0].arguments)
        before.add(calls[-1].name)
    if not calls:
        raise BadText(1, "there is no record; the first is: grid W R K N")
    return calls

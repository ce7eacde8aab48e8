"""Runs as text for the library: the runs of runs/ as tools/records reads them, every call, repeats, and what bad text is told."""
import importlib.machinery
import importlib.util
import os
import re
import subprocess
import sys
import time
import unittest

import numpy

import puldeho
from puldeho.calls import REMEDIES, SHAPES, SIGNATURES, WORLD
from puldeho_day.calls_text import RANGES, RECORDS, BadText, read_calls

DAY = os.path.dirname(os.path.dirname(os.path.abspath(__file__)))
TOP = os.path.dirname(DAY)
RUNS = os.path.join(TOP, "runs")
START = "grid 4 1 1 1\nload air 100*6 tracers 0 0 100 200 100 0\n"


def load_tool():
    """tools/records as a module; it has no suffix, and no compiled copy is kept beside it."""
    sys.dont_write_bytecode = True
    loader = importlib.machinery.SourceFileLoader("records", os.path.join(TOP, "tools", "records"))
    module = importlib.util.module_from_spec(importlib.util.spec_from_loader("records", loader))
    loader.exec_module(module)
    return module


records = load_tool()


def run_texts():
    """The texts of runs/ by their files."""
    names = [name for name in sorted(os.listdir(RUNS)) if name.endswith(".txt")]
    return {name: records.as_text(records.read(os.path.join(RUNS, name))) for name in names}


def flat(arguments):
    """The numbers of a call in the order of its text."""
    return [number for one in arguments for number in numpy.ravel(one).tolist()]


class Runs(unittest.TestCase):
    def test_the_calls_are_the_records_of_the_runner(self):
        read = 0
        for name, text in run_texts().items():
            if re.search("^bytes", text, re.M):
                continue
            calls, found = read_calls(text), records.binary_records(records.encode(text))
            self.assertEqual(len(calls), len(found), name)
            self.assertEqual([call.line for call in calls], [record.line for record in records.text_records(text)], name)
            for call, record in zip(calls, found):
                self.assertEqual((call.name, flat(call.arguments)), (records.NAMES[record.kind - 1], sum(record.parts, [])), name)
            read += 1
        self.assertGreater(read, 10)

    def test_a_run_with_raw_bytes(self):
        with self.assertRaisesRegex(BadText, r"\Aline 7: 'bytes' is for the runner \(tools/run\)"):
            read_calls(run_texts()["damaged.txt"])

    def test_the_calls_are_those_of_a_world(self):
        first, load, *calls = read_calls(run_texts()["case_p.txt"])
        world = puldeho.World(first.arguments, *(one.copy() for one in load.arguments))
        counts = [getattr(world, call.name)(*call.arguments) for call in calls]
        self.assertEqual(counts, [1, 400, 262])
        self.assertEqual(load.arguments[1].tolist(), [0, 0, 100, 200, 100, 0])


class EveryCall(unittest.TestCase):
    GRID = puldeho.Grid(w=5, r=3, k=2, n=4)

    def numbers(self, call):
        """A number, or a list of numbers, for each of a call's own arguments, no two of them equal."""
        for place, (name, _) in enumerate((one for one in SIGNATURES[call] if one[0] not in WORLD), 1):
            listed = (call, name) in SHAPES
            yield [1000 * place + at for at in range(getattr(self.GRID, "%s_%s_length" % (call, name)))] if listed else 10 * place

    def test_every_call_once(self):
        start = "grid 5 3 2 4\nload air 7*%d tracers 1*%d\n" % (self.GRID.air_length, self.GRID.tracers_length)
        given = {call: list(self.numbers(call)) for call in SIGNATURES if call != "load"}
        text = start + "".join("%s %s\n" % (call, " ".join(map(str, flat(own)))) for call, own in given.items())
        calls = read_calls(text)
        self.assertEqual([call.name for call in calls], ["grid", "load"] + list(given))
        self.assertEqual([call.line for call in calls], list(range(1, len(calls) + 1)))
        for call in calls[2:]:
            self.assertEqual([numpy.ravel(one).tolist() for one in call.arguments], [numpy.ravel(one).tolist() for one in given[call.name]])
            self.types(call)

    def types(self, call):
        """A number is an int, and a list is an array of the library's type, which nothing can write."""
        kinds = [kind for name, kind in SIGNATURES[call.name] if name not in WORLD]
        for kind, one in zip(kinds, call.arguments, strict=True):
            if kind in ("u32", "u64"):
                self.assertIs(type(one), int)
            else:
                self.assertEqual(one.dtype, {"&[u32]": numpy.uint32, "&[i32]": numpy.int32}[kind])
                self.assertFalse(one.flags.writeable)

    def test_grid_and_load(self):
        grid, load = read_calls("# small\ngrid 4 1 1 2\n\nload air 100*5\n  65535 # north cap\n  tracers 4294967295 0*11\n")
        self.assertEqual(grid, (2, "grid", (4, 1, 1, 2)))
        self.assertEqual(load[:2], (4, "load"))
        self.assertEqual([one.tolist() for one in load.arguments], [[100] * 5 + [65535], [4294967295] + [0] * 11])
        self.assertEqual([one.dtype for one in load.arguments], [numpy.uint32] * 2)

    def test_limits_of_the_types(self):
        text = START + "set_limiter 0 3 18446744073709551614 18446744073709551615\nzonal 0 4294967295 -2147483648 2147483647 0*2\n"
        limiter, zonal = read_calls(text)[2:]
        self.assertEqual(limiter.arguments, (0, 3, 2**64 - 2, 2**64 - 1))
        self.assertEqual(flat(zonal.arguments), [0, 2**32 - 1, -(2**31), 2**31 - 1, 0, 0])


class Repeats(unittest.TestCase):
    def test_a_repeat_is_written_out_and_read_once(self):
        turn = "zonal 0 0 0 50\n  0 0\ntick 0\n"
        repeated = read_calls(START + "repeat 3\n" + turn + "end\ntotal 0\n")
        plain = read_calls(START + 3 * turn + "total 0\n")
        self.assertEqual([(one.name, flat(one.arguments)) for one in repeated], [(one.name, flat(one.arguments)) for one in plain])
        self.assertEqual([one.line for one in repeated], [1, 2, 4, 6, 4, 6, 4, 6, 8])
        self.assertIs(repeated[2].arguments[2], repeated[6].arguments[2])

    def test_many_turns(self):
        calls = read_calls(START + "repeat 200000\nmeridional 0 1*8\nend\n")
        self.assertEqual((len(calls), flat(calls[-1].arguments)), (200002, [0] + [1] * 8))


class LargestGrid(unittest.TestCase):
    def test_a_load(self):
        grid = puldeho.Grid(*(most for _, most in RANGES.values()))
        air, tracers = numpy.arange(grid.air_length) % 65535 + 1, numpy.arange(grid.tracers_length) % 331
        text = "grid %d %d %d %d\nload air " % grid + " ".join(map(str, air)) + "\n  tracers " + " ".join(map(str, tracers))
        before = time.process_time()
        load = read_calls(text)[1]
        self.assertLess(time.process_time() - before, 20)
        self.assertEqual([len(one) for one in load.arguments], [101440, 811520])
        self.assertTrue((load.arguments[0] == air).all() and (load.arguments[1] == tracers).all())


class Ranges(unittest.TestCase):
    def test_they_are_the_library_s(self):
        bounds = [bound for limits in RANGES.values() for bound in limits]
        said = "give W from %d to %d, R from %d to %d, K from %d to %d and N from %d to %d, in this order" % tuple(bounds)
        self.assertEqual(REMEDIES[puldeho.Refusal.GRID_RANGE], said)

    def test_each_bound_and_the_number_beyond_it(self):
        inside = [least for least, _ in RANGES.values()]
        for place, (name, (least, most)) in enumerate(RANGES.items()):
            for value in (least, most, least - 1, most + 1, 2**32):
                numbers = inside[:place] + [value] + inside[place + 1 :]
                text = "\ngrid %d %d %d %d\n" % tuple(numbers)
                if least <= value <= most:
                    self.assertEqual(read_calls(text)[0].arguments, tuple(numbers))
                else:
                    with self.assertRaises(BadText) as caught:
                        read_calls(text)
                    self.assertEqual(str(caught.exception), "line 2: %s: %d is not from %d to %d" % (name, value, least, most))


class Bad(unittest.TestCase):
    WORDS = "the records are " + ", ".join(RECORDS)
    U64 = "18446744073709551615"
    TOLD = (
        ("", "line 1: there is no record; the first is: grid W R K N"),
        ("# nothing\n\n", "line 1: there is no record; the first is: grid W R K N"),
        ("grid 4 1 1\n", "line 1: grid wants 4 numbers here (columns, rows, layers, tracers), and has 3"),
        (" 4\n", "line 1: an indented line continues the record above it, and there is none"),
        ("gird 4 1 1 1\n", "line 1: 'gird' is no record; " + WORDS),
        (START + "why 0\n", "line 3: 'why' is no record; " + WORDS),
        (START + "bytes 1 2\n", "line 3: 'bytes' is for the runner (tools/run): no call of the library has raw bytes"),
        ("bytes 1\n", "line 1: 'bytes' is for the runner (tools/run): no call of the library has raw bytes"),
        ("\nload air 100*6 tracers 0*6\n", "line 2: load out of place: no grid yet"),
        ("total 0\n", "line 1: total out of place: no grid yet"),
        ("grid 4 1 1 1\ntotal 0\nload air 100*6 tracers 0*6\n", "line 2: total out of place: no load yet"),
        (START + "grid 4 1 1 1\n", "line 3: grid out of place: a second grid"),
        ("repeat 2\ngrid 4 1 1 1\nend\n", "line 2: grid out of place: a second grid"),
        ("grid 4 1 1 1\nload 100*6\n", "line 2: a load is written: load air AMOUNT.. tracers AMOUNT.."),
        ("grid 4 1 1 1\nload air 1*5\n  tracers 0*6\n", "line 2: load wants 6 numbers here (6 air), and has 5"),
        ("grid 4 1 1 1\nload air 1*6\n  tracers 0*7\n", "line 3: load wants 6 numbers here (6 tracers), and has 7"),
        ("grid 4 1 1 1\nload air 1*5\n -1 tracers 0*6\n", "line 3: air: -1 is not from 0 to 4294967295"),
        (START + "zonal 0 0 1 2 3\n", "line 3: zonal wants 6 numbers here (layer, row, 4 fluxes), and has 5"),
        (START + "zonal_with_count 0 0 1*4\n", "line 3: zonal_with_count wants 7 numbers here (layer, row, given, 4 fluxes), and has 6"),
        (START + "meridional 0 1*9\n", "line 3: meridional wants 9 numbers here (layer, 8 fluxes), and has 10"),
        (START + "zonal 0 0 1 2\n 3 2147483648\n", "line 4: fluxes: 2147483648 is not from -2147483648 to 2147483647"),
        (START + "remap 0 0 0\n", "line 3: remap wants 4 numbers here (4 table numbers), and has 3"),
        (START + "remap 0 0 0 -1\n", "line 3: table numbers: -1 is not from 0 to 4294967295"),
        (START + "tick\n", "line 3: tick wants 1 numbers here (tracer), and has 0"),
        (START + "emission 0 1 -1\n", "line 3: amount: -1 is not from 0 to 4294967295"),
        (START + "add_emitter 0 1 4294967296 5\n", "line 3: id: 4294967296 is not from 0 to 4294967295"),
        (START + "set_limiter 0 3 0\n", "line 3: set_limiter wants 4 numbers here (tracer, limiter, lo, hi), and has 3"),
        (START + "set_limiter 0 3 0\n  18446744073709551616\n", "line 4: hi: 18446744073709551616 is not from 0 to " + U64),
        (START + "set_limiter 0 3 0 100000000000000000000\n", "line 3: '100000000000000000000' is too large"),
        (START + "total x\n", "line 3: 'x' is not a number such as 100 or -5, nor a repeated one such as 100*6"),
        (START + "zonal 0 0 1*0\n", "line 3: '1*0' repeats a number, but not 1 to 1000000 times"),
        (START + "repeat 2\ntotal 0\n", "line 3: a repeat without an end"),
        (START + "repeat 2\ntotal 0\nrepeat 2\n", "line 5: a repeat inside that of line 3, which has no end yet"),
        (START + "total 0\nend\n", "line 4: an end stands alone in its line, after a repeat"),
        (START + "repeat 0\nend\n", "line 3: a repeat is written: repeat TIMES, from 1 to 1000000"),
    )

    def test_bad_text_is_told_its_line(self):
        for text, told in self.TOLD:
            with self.assertRaises(BadText, msg=text) as caught:
                read_calls(text)
            self.assertEqual(str(caught.exception), told)


class WithoutNumpy(unittest.TestCase):
    def test_the_splitting_imports_neither_numpy_nor_the_library(self):
        program = "import sys, puldeho_day.text; sys.exit(any(name in sys.modules for name in ('numpy', 'puldeho')))"
        done = subprocess.run([sys.executable, "-c", program], cwd=DAY)
        self.assertEqual(done.returncode, 0)


if __name__ == "__main__":
    unittest.main()

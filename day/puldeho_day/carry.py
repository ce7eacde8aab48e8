"""The command `puldeho run`: gases carried through a day, or through calls written as text, on any grid of the library."""
import collections
import sys

import numpy as np
import puldeho

from . import calls_text
from . import day as days
from . import runs
from .engines import SEE_LEDGER, SEE_WORLD, Library, Program, call
from .files import Bad, checksum, made
from .prepare import layer_air

READINGS = ("total", "cell", "units_a_tick", "count_zonal")


class Stopped(Exception):
    """A refused call at which the run stops. Nothing has been written."""


class Tally:
    """Counts accepted and refused calls, says progress on standard error, and stops at a refusal if told to."""

    def __init__(self, stop, quiet):
        self.stop, self.quiet, self.accepted, self.refused, self.firsts = stop, quiet, collections.Counter(), collections.Counter(), {}
        self.shown = -1

    def note(self, where, item, came):
        """Notes a call's answer."""
        if not came.refusal:
            self.accepted[item.name] += 1
            return
        self.refused[item.name, came.refusal] += 1
        self.firsts.setdefault((item.name, came.refusal), "%s: %s" % (where, came.why))
        if self.stop or item.name in ("load", "resume"):
            raise Stopped("stopped at %s: %s Nothing was written. With --refusals count the run goes on." % (where, came.why))

    def progress(self, done, whole, words):
        """Says how far the run is: in place on a terminal, else every tenth part."""
        tenth = 10 * done // whole
        if self.quiet or not sys.stderr.isatty() and tenth == self.shown:
            return
        self.shown = tenth
        line = "%3d %%  %s, %d calls accepted, %d refused" % (100 * done // whole, words, sum(self.accepted.values()), sum(self.refused.values()))
        end = "\n" if not sys.stderr.isatty() or done == whole else ""
        print(("\r\033[K" if sys.stderr.isatty() else "") + line, end=end, file=sys.stderr, flush=True)

    def lines(self):
        """What was accepted and what was refused, with the first of each kind."""
        yield "accepted      " + (", ".join("%d %s" % (self.accepted[name], name) for name in sorted(self.accepted)) or "nothing")
        if not self.refused:
            yield "refused       nothing"
        for (name, refusal), count in sorted(self.refused.items()):
            yield "REFUSED       %d %s with %d; the first: %s" % (count, name, refusal, self.firsts[name, refusal])


def start_of(day, earlier):
    """The first item: a load, or the last world of an earlier run, to go on from it."""
    if earlier is None:
        return call("load", day.air, np.array([gas.loaded for gas in day.gases]))
    last = earlier.worlds[-1]
    if (earlier.names, earlier.units) != ([gas.name for gas in day.gases], [gas.unit for gas in day.gases]):
        raise Bad("the day has other gases, or other units of them, than the run before it; make it with puldeho fluxes --after")
    if not np.array_equal(last["air"], day.air):
        raise Bad("the day begins with other air than the run before it ends with, in %d of %d cells; make it with puldeho fluxes --after"
                  % ((last["air"] != day.air).sum(), day.air.size))
    return call("resume", last["air"], last["tracers"], last["ledger"].ravel())


def day_items(day, earlier):
    """Where in the day it is, and the next item: the load and limiters, then for each step sweeps, exchanges, totals and books; the
    world after each interval."""
    yield "the start", start_of(day, earlier)
    for place, gas in enumerate(day.gases):
        if earlier is None and gas.limiter != 1:
            yield "the start", call("set_limiter", place, gas.limiter, gas.lo, gas.hi)
    yield "the start", SEE_WORLD
    for step in range(len(day.zonal)):
        where = "step %d, which ends at %.4g hours" % (step + 1, day.end_of(step) / 3600)
        for makers in (day.sweeps, day.changes):
            for name, arguments in makers(step):
                yield where + shown(name, arguments), call(name, *arguments)
        for gas in range(len(day.gases)):
            yield where, call("total", gas)
        yield where, SEE_LEDGER
        if day.ends_interval(step):
            yield where, SEE_WORLD


def shown(name, arguments):
    """A call's numbers, without its list, in words."""
    numbers = [str(one) for one in arguments if np.ndim(one) == 0]
    return ", %s" % " ".join([name, *numbers])


class DayRun:
    """A day carried through by an engine."""

    def __init__(self, day, run, tally, keep_seconds, offset):
        self.day, self.run, self.tally, self.keep, self.offset = day, run, tally, keep_seconds, offset
        self.step, self.interval, self.totals, self.unlike, self.substeps = 0, 0, [], 0, 0

    def carry(self, engine, places, items):
        """Makes all calls and keeps what is asked for."""
        for place, (item, came) in zip(places, engine.outcomes(items)):
            if item.kind == "world":
                self.see_world(came)
            elif item.kind == "ledger":
                self.end_step(came)
            else:
                self.tally.note(place, item, came)
                self.totals += [came.count] if item.name == "total" else []
                self.substeps = max(self.substeps, came.count) if item.name == "zonal" else self.substeps

    def end_step(self, ledger):
        """The totals and books after a step."""
        end = self.day.end_of(self.step)
        self.run.add_step(self.offset + end, self.totals, ledger)
        self.step, self.totals = self.step + 1, []
        self.tally.progress(self.step, len(self.day.zonal), "hour %.4g of %.4g" % (end / 3600, self.day.seconds[-1] / 3600))

    def see_world(self, state):
        """The world at a time of the day: whether its air is as wanted, and whether it is to be kept."""
        wanted, seconds = layer_air(self.day.table, self.day.columns[self.interval]), float(self.day.seconds[self.interval])
        self.unlike += int((np.reshape(state.air, wanted.shape).astype(np.int64) != wanted).sum())
        last = self.interval == len(self.day.seconds) - 1
        if self.interval == 0 or last or self.keep and seconds % self.keep == 0:
            self.run.add_point(self.offset + seconds, state)
        self.interval += 1


def run_day(given, tally):
    """Carries the gases through a day; gives the run and the lines about it."""
    day, input_sum = days.read(given.input)
    if not day.gases:
        raise Bad("%s: has no gases" % given.input)
    earlier = runs.read(given.start) if given.start else None
    grid = puldeho.Grid(day.sphere.columns, day.sphere.rows, day.layers, len(day.gases))
    engine = Program(grid, given.by) if given.by else Library(grid)
    before = earlier.attributes if earlier else {}
    loaded = before.get("load_sha256") or runs.load_checksum(grid, day.air, np.array([gas.loaded for gas in day.gases]))
    attributes = {"load_sha256": loaded, "input": given.input, "input_sha256": input_sum, "made_by": engine.described,
                  "air_unit": day.attributes["air_unit"], "inputs_since_load": (before.get("inputs_since_load", "") + " " + input_sum).strip()}
    run = runs.Run(grid, [gas.name for gas in day.gases], [gas.unit for gas in day.gases], day.sphere, day.table, attributes)
    carried = DayRun(day, run, tally, 3600 * given.keep, earlier.times[-1] if earlier else 0.0)
    places, items = zip(*day_items(day, earlier)) if given.by else (None, None)
    if given.by:
        carried.carry(engine, places, items)
    else:
        carry_lazily(carried, engine, day_items(day, earlier))
    air = "as the day has it, to the unit, in every cell at each of its %d times" % len(day.seconds)
    if carried.unlike:
        air = "OTHER than the day has it in %d cells, over its %d times" % (carried.unlike, len(day.seconds))
    return run, ["air           " + air, "substeps      at most %d in a zonal sweep" % carried.substeps]

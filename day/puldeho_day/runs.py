"""The file of a run: worlds of some points of it, totals and books after each step, and where it all comes from."""
import hashlib

import numpy as np
import puldeho

from . import day as days
from .files import Bad, opened, put, values, variable, wanted

BOOK = puldeho.calls.BOOK_PLACE
LISTS = ("air", "tracers", "ledger")


class Run:
    """What a run has come to. Times are seconds since the load; a run of records as text has the calls made so far in their place."""

    def __init__(self, grid, names, units, sphere=None, table=None, attributes=None):
        self.grid, self.names, self.units, self.sphere, self.table = grid, names, units, sphere, table
        self.times, self.worlds = [], []            # of the points; a world is {"air": (K, C), "tracers": (N, K, C), "ledger": (N, ..)}
        self.step_times, self.totals, self.ledgers = [], [], []     # after each step: (N), (N, ..)
        self.attributes = dict(attributes or {})

    def add_point(self, time, state):
        """Keeps the world of a point."""
        shapes = {"air": self.grid.air_shape, "tracers": self.grid.tracers_shape, "ledger": self.grid.ledger_shape}
        self.times.append(float(time))
        self.worlds.append({name: np.array(getattr(state, name), dtype=np.int64).reshape(shapes[name]) for name in LISTS})

    def add_step(self, time, totals, ledger):
        """Keeps the totals and the books after a step."""
        self.step_times.append(float(time))
        self.totals.append(list(totals))
        self.ledgers.append(np.array(ledger, dtype=np.int64).reshape(self.grid.ledger_shape))

    def book(self, point, gas):
        """Loaded, emitted and withdrawn of a gas at a point, as whole numbers."""
        return puldeho.Book(*self.worlds[point]["ledger"][gas, BOOK : BOOK + 3].tolist())

    def total(self, point, gas):
        """The sum of a gas over all cells at a point."""
        return int(self.worlds[point]["tracers"][gas].sum())

    def limiter(self, point, gas):
        """The limiter of a gas at a point: number, lo, hi."""
        place = puldeho.calls.LIMITER_PLACE
        number, lo, lo_high, hi, hi_high = self.worlds[point]["ledger"][gas, place : place + 5].tolist()
        return number, lo_high << 32 | lo, hi_high << 32 | hi


def load_checksum(grid, air, tracers):
    """By which a load is known: the SHA-256 of its grid, air and tracers, each number as four bytes, the lowest first."""
    found = hashlib.sha256()
    for numbers in (tuple(grid), air, tracers):
        found.update(np.ascontiguousarray(np.ravel(numbers), dtype="<u4").tobytes())
    return found.hexdigest()


def write(run, data):
    """Writes a run into a new NetCDF file."""
    grid = run.grid
    data.puldeho_file, data.puldeho_format = "run", 1
    data.title = "A run of the Puldeho console: worlds in whole units, with their books"
    data.puldeho_version, data.scale = puldeho.__version__, np.int32(puldeho.SCALE)
    data.limiters = "; ".join("%s %d from %d to %d" % (name, *run.limiter(-1, gas)) for gas, name in enumerate(run.names))
    data.setncatts(run.attributes)
    sizes = {"point": len(run.times), "after_step": len(run.step_times), "gas": grid.n, "layer": grid.k, "cell": grid.cells_in_layer,
             "ledger_number": grid.ledger_length // grid.n, "layer_edge": grid.k + 1, "pair": 2, "row": grid.r, "row_edge": grid.r + 1, "column": grid.w}
    for name, size in sizes.items():
        data.createDimension(name, size)
    if run.sphere:
        days.write_grid(data, run.sphere, run.table)
    put(data, "gas_name", str, ("gas",), run.names)
    put(data, "gas_unit", "f8", ("gas",), run.units, long_name="kilograms of a unit of the gas; 0 where it is not known", units="kg")
    time = "seconds since the load" if run.sphere else "calls made since the load"
    put(data, "time", "f8", ("point",), run.times, long_name=time)
    write_worlds(data, run)
    put(data, "step_time", "f8", ("after_step",), run.step_times, long_name=time)
    put(data, "step_total", "i8", ("after_step", "gas"), np.array(run.totals).reshape(-1, grid.n), units="units of the gas",
        long_name="answer of the call total after the step")
    ledgers = np.array(run.ledgers).reshape(-1, *grid.ledger_shape)
    for place, name in enumerate(("loaded", "emitted", "withdrawn")):
        put(data, "step_" + name, "i8", ("after_step", "gas"), ledgers[:, :, BOOK + place], units="units of the gas", long_name=name + " by the book")


def write_worlds(data, run):
    """The lists of the worlds, and the books in words of their own."""
    put(data, "air", "i4", ("point", "layer", "cell"), [one["air"] for one in run.worlds], units="units of air",
        long_name="air; cell 0 is the south cap, 1 + row*columns + column a cell of a row, the last the north cap")
    put(data, "tracers", "i4", ("point", "gas", "layer", "cell"), [one["tracers"] for one in run.worlds], units="units of the gas",
        long_name="gas; times gas_unit it is in kg")
    put(data, "ledger", "u4", ("point", "gas", "ledger_number"), [one["ledger"] for one in run.worlds], long_name="emitters, limiter and book")
    for place, name in enumerate(("loaded", "emitted", "withdrawn")):
        numbers = [one["ledger"][:, BOOK + place] for one in run.worlds]
        put(data, name, "i8", ("point", "gas"), numbers, units="units of the gas", long_name=name + " since the load, by the book")


def read(path):
    """The run of a file."""
    with opened(path) as data:
        wanted(data, "run")
        sizes = [data.dimensions[name].size for name in ("column", "row", "layer", "gas")]
        located = "row_edge" in data.variables
        names = [str(name) for name in data.variables["gas_name"][...]]
        run = Run(puldeho.Grid(*sizes), names, values(data, variable(data, "gas_unit")).tolist(), days.read_sphere(data) if located else None,
                  days.whole(data, "table") if located else None, {name: data.getncattr(name) for name in data.ncattrs()})
        run.times = values(data, variable(data, "time")).tolist()
        lists = {name: days.whole(data, name) for name in LISTS}
        run.worlds = [{name: lists[name][point] for name in LISTS} for point in range(len(run.times))]
        run.step_times = values(data, variable(data, "step_time")).tolist()
        run.totals = days.whole(data, "step_total").tolist()
        run.step_books = {name: days.whole(data, "step_" + name) for name in ("loaded", "emitted", "withdrawn")}
    if not run.times:
        raise Bad("%s: has no point" % path)
    return run

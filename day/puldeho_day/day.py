"""A day for the console, in whole numbers: air, fluxes of each step, the remap's table, gases and their sources; as a file and as calls."""
import collections

import numpy as np

from .files import Bad, checksum, opened, put, values, variable, wanted
from .sphere import Sphere

# A gas of a day: its name, the kilograms of a unit, its limiter with bounds, and the amounts loaded, (K, C).
DayGas = collections.namedtuple("DayGas", "name unit limiter lo hi loaded")
# Amounts of one step: the gas, cells over all layers, and what is emitted (or withdrawn) in each.
Exchange = collections.namedtuple("Exchange", "step gas cells amounts withdrawn")

ATTRIBUTES = ("air_unit", "air_reference", "time_units", "source", "source_sha256", "made_by", "made_after")


class Day:
    """The numbers of a day. `steps` are equal parts of the intervals between the times; after the last of an interval comes a remap."""

    def __init__(self, **given):
        self.sphere = given["sphere"]           # the grid on the globe
        self.table = given["table"]             # the remap's, (K + 1, 2)
        self.seconds = given["seconds"]         # of the times, from the first on
        self.columns = given["columns"]         # air of the columns at the times, (times, C)
        self.air = given["air"]                 # at the start, (K, C)
        self.zonal = given["zonal"]             # (steps, K, R, W)
        self.meridional = given["meridional"]   # (steps, K, R + 1, W)
        self.long_rows = given["long_rows"]     # rows with the long sweep, (R)
        self.gases = given.get("gases", [])
        self.exchanges = given.get("exchanges", [])
        self.attributes = given.get("attributes", {})

    @property
    def layers(self):
        """K."""
        return len(self.table) - 1

    @property
    def parts(self):
        """In how many steps an interval is made."""
        return len(self.zonal) // (len(self.seconds) - 1)

    def end_of(self, step):
        """When a step ends, in seconds from the start."""
        place, part = divmod(step + 1, self.parts)
        if part == 0:
            return float(self.seconds[place])
        return float(self.seconds[place] + part * (self.seconds[place + 1] - self.seconds[place]) / self.parts)

    def ends_interval(self, step):
        """Whether a step is the last of its interval."""
        return (step + 1) % self.parts == 0

    def sweeps(self, step):
        """The calls of a step that move air: rows first in even steps, layers first in odd ones; then the remap, if it is due."""
        for rows in (True, False) if step % 2 == 0 else (False, True):
            yield from self.row_sweeps(step) if rows else self.layer_sweeps(step)
        if self.ends_interval(step):
            yield "remap", (self.table.astype(np.uint32).ravel(),)

    def row_sweeps(self, step):
        """The zonal sweeps of a step, in the rows that want it the long ones."""
        for layer, row in np.ndindex(self.layers, self.sphere.rows):
            yield "long_zonal" if self.long_rows[row] else "zonal", (layer, row, self.zonal[step, layer, row])

    def layer_sweeps(self, step):
        """The meridional sweeps of a step."""
        for layer in range(self.layers):
            yield "meridional", (layer, self.meridional[step, layer].ravel())

    def changes(self, step):
        """The emissions and withdrawals after the sweeps of a step."""
        for one in self.exchanges:
            if one.step == step:
                for cell, amount in zip(one.cells.tolist(), one.amounts.tolist()):
                    yield "withdrawal" if one.withdrawn else "emission", (one.gas, cell, amount)


def write(day, data):
    """Writes a day into a new NetCDF file."""
    sphere = day.sphere
    data.puldeho_file, data.puldeho_format = "day", 1
    data.title = "A day for the Puldeho console: air and fluxes in whole units, made from winds and surface pressure"
    for name in ATTRIBUTES:
        if name in day.attributes:
            data.setncattr(name, day.attributes[name])
    sizes = {"time": len(day.seconds), "step": len(day.zonal), "layer": day.layers, "layer_edge": day.layers + 1, "pair": 2, "row": sphere.rows,
             "row_edge": sphere.rows + 1, "column": sphere.columns, "cell": sphere.cells, "gas": len(day.gases), "entry": None}
    for name, size in sizes.items():
        data.createDimension(name, size)
    write_grid(data, sphere, day.table)
    put(data, "time", "f8", ("time",), day.seconds, long_name="seconds since the first time", units="s", calendar_units=day.attributes["time_units"])
    put(data, "column_air", "i4", ("time", "cell"), day.columns, long_name="air of each column at each time", units="units of air")
    put(data, "air", "i4", ("layer", "cell"), day.air, long_name="air at the start", units="units of air")
    put(data, "zonal_flux", "i4", ("step", "layer", "row", "column"), day.zonal, units="units of air", long_name="through the east face, positive eastward")
    put(data, "meridional_flux", "i4", ("step", "layer", "row_edge", "column"), day.meridional, units="units of air",
        long_name="across the edge south of a row (the last: north of the last row), positive northward")
    put(data, "long_row", "i1", ("row",), day.long_rows, long_name="1 where the row is swept by long_zonal, 0 where by zonal")
    write_gases(data, day.gases)
    write_exchanges(data, day.exchanges)


def write_grid(data, sphere, table):
    """The grid on the globe, the areas of the cells and the remap's table."""
    put(data, "row_edge", "f8", ("row_edge",), sphere.edges, long_name="latitude of the rows' edges", units="degrees_north")
    west = sphere.west + np.arange(sphere.columns) * 360.0 / sphere.columns
    put(data, "column_west", "f8", ("column",), west, long_name="longitude of the columns' west edges", units="degrees_east")
    put(data, "cell_area", "f8", ("cell",), sphere.areas(), standard_name="cell_area", units="m2")
    put(data, "table", "i4", ("layer_edge", "pair"), table, long_name="the remap's table: a in units of air, b in parts of 65,536")


def write_gases(data, gases):
    """The gases: names, units, limiters and the amounts loaded."""
    if gases:
        put(data, "gas_name", str, ("gas",), [gas.name for gas in gases])
        put(data, "gas_unit", "f8", ("gas",), [gas.unit for gas in gases], long_name="kilograms of a unit of the gas", units="kg")
        put(data, "limiter", "i4", ("gas",), [gas.limiter for gas in gases], long_name="the limiter: 1 present, 2 positive, 3 fixed")
        for name in ("lo", "hi"):
            put(data, name, "u8", ("gas",), [getattr(gas, name) for gas in gases], long_name="bound of the fixed limiter, in the scale of the ratio")
        put(data, "loaded", "i4", ("gas", "layer", "cell"), [gas.loaded for gas in gases], long_name="gas at the start", units="units of the gas")


def write_exchanges(data, exchanges):
    """Emissions and withdrawals as one list, in the order in which they are made."""
    flat = [np.concatenate([part(one) for one in exchanges] or [np.zeros(0, int)]) for part in (
        lambda one: np.full(len(one.cells), one.step), lambda one: np.full(len(one.cells), one.gas), lambda one: one.cells,
        lambda one: -one.amounts if one.withdrawn else one.amounts)]
    words = ("step after whose sweeps it is made", "gas", "cell over all layers", "units of the gas: emitted, or below 0 withdrawn")
    for name, numbers, said in zip(("exchange_step", "exchange_gas", "exchange_cell", "exchange_amount"), flat, words):
        put(data, name, "i4", ("entry",), numbers, long_name=said)


def whole(data, name):
    """A variable of whole numbers."""
    return values(data, variable(data, name)).astype(np.int64)


def read(path):
    """The day of a file, and the file's checksum."""
    with opened(path) as data:
        wanted(data, "day")
        sphere = read_sphere(data)
        day = Day(
            sphere=sphere, table=whole(data, "table"), seconds=values(data, variable(data, "time")), columns=whole(data, "column_air"),
            air=whole(data, "air"), zonal=whole(data, "zonal_flux").astype(np.int32), meridional=whole(data, "meridional_flux").astype(np.int32),
            long_rows=whole(data, "long_row") == 1, gases=read_gases(data), exchanges=read_exchanges(data),
            attributes={name: data.getncattr(name) for name in ATTRIBUTES if name in data.ncattrs()})
    if len(day.zonal) == 0 or len(day.zonal) % (len(day.seconds) - 1):
        raise Bad("%s: has %d steps in %d intervals" % (path, len(day.zonal), len(day.seconds) - 1))
    return day, checksum(path)


def read_sphere(data):
    """The grid on the globe of a file of this package."""
    west, edges = values(data, variable(data, "column_west")), values(data, variable(data, "row_edge"))
    return Sphere(len(west), west[0], edges)


def read_gases(data):
    """The gases of a day."""
    if "gas_name" not in data.variables:
        return []
    names, units = list(data.variables["gas_name"][...]), values(data, variable(data, "gas_unit"))
    limiters, loaded = whole(data, "limiter"), whole(data, "loaded")
    bounds = [[int(one) for one in np.ma.getdata(variable(data, name)[...])] for name in ("lo", "hi")]
    return [DayGas(*one) for one in zip(names, units.tolist(), limiters.tolist(), *bounds, loaded)]


def read_exchanges(data):
    """The emissions and withdrawals of a day, those of one step, gas and kind together."""
    steps, gases, cells, amounts = (whole(data, "exchange_" + name) for name in ("step", "gas", "cell", "amount"))
    found, start = [], 0
    kinds = np.stack([steps, gases, amounts < 0], axis=1)
    ends = np.flatnonzero((kinds[1:] != kinds[:-1]).any(axis=1)) + 1
    for end in [*ends.tolist(), len(steps)] if len(steps) else []:
        withdrawn = bool(amounts[start] < 0)
        found.append(Exchange(int(steps[start]), int(gases[start]), cells[start:end], np.abs(amounts[start:end]), withdrawn))
        start = end
    return found

"""The command `puldeho fluxes`: a day of winds and surface pressure, and the gases, made into a day for the console in whole numbers."""
import contextlib

import numpy as np
import puldeho

from . import day as days
from . import gases, prepare, steps
from .files import Bad, checksum, made, opened
from .report import report
from .winds import Fields, Winds

LIMITERS = {"present": 1, "positive": 2, "fixed": 3}


class Made:
    """What stands when the winds have been read: the fluxes since the start, the surface pressures, the unit of air."""

    def __init__(self, winds, unit, after):
        self.winds, self.after = winds, after
        self.table = winds.layers.table()
        if after and not (same_grid(after.sphere, winds.sphere) and np.array_equal(after.table, self.table)):
            raise Bad("%s: has another grid or other layers than the day before it" % winds.path)
        self.shares = self.table[:, 1] / prepare.TABLE_SCALE
        self.surfaces = [winds.surface(time) for time in range(len(winds.seconds))]
        self.masses = np.array([winds.masses(one) for one in self.surfaces])
        self.unit = after.attributes["air_unit"] if after else unit or prepare.air_unit(self.masses, self.shares)
        reference = after.attributes["air_reference"] if after else None
        self.columns = prepare.Columns(winds.seconds, self.masses, winds.sphere.areas(), self.unit, reference)
        start = after.columns[-1] if after else self.columns.at(winds.seconds[0])
        self.fluxes = prepare.Fluxes(winds.sphere, self.columns, self.shares, start)

    def read_fluxes(self):
        """Reads the winds, time by time. Between two times the flux is the mean of both."""
        before = None
        for time, surface in enumerate(self.surfaces):
            rates = self.winds.fluxes(time, surface, self.shares)
            if before is not None:
                seconds = self.winds.seconds[time] - self.winds.seconds[time - 1]
                self.fluxes.add(*((a + b) / 2 * seconds / self.unit for a, b in zip(before, rates)))
            before = rates


def same_grid(one, other):
    """Whether two grids lie alike on the globe."""
    return one.columns == other.columns and len(one.edges) == len(other.edges) and np.allclose(
        [one.west, *one.edges], [other.west, *other.edges], atol=1e-6)


def limiter_of(words, name, scale):
    """The number and the bounds of a gas's limiter, from words such as co2=positive or co2=fixed:0:0.001, bounds as mass fractions;
    `scale` makes a bound of a mass fraction."""
    given = dict(word.partition("=")[::2] for word in words)
    sort, *bounds = given.get(name, "present").split(":")
    if sort not in LIMITERS or len(bounds) != (2 if sort == "fixed" else 0):
        raise Bad("--limiter %s=%s: wanted is GAS=present, GAS=positive or GAS=fixed:LO:HI, LO and HI as mass fractions" % (name, given[name]))
    try:
        return (LIMITERS[sort], *(int(float(bound) * scale) for bound in bounds)) if bounds else (LIMITERS[sort], 0, 0)
    except ValueError:
        raise Bad("--limiter %s=%s: LO and HI are numbers" % (name, given[name])) from None


def day_gas(gas, made_of, day, words):
    """A gas of the day, in units of its own; after another day, in that day's, with nothing loaded."""
    rates = gas.rates(len(day.seconds))
    emitted = (np.maximum(rates, 0)[:, 1:] + np.maximum(rates, 0)[:, :-1]).sum(axis=(0, 2)) @ np.diff(day.seconds) / 2
    if made_of.after:
        known = {one.name: one for one in made_of.after.gases}
        return known[gas.name]._replace(loaded=np.zeros_like(day.air)), rates
    fraction = gas.fraction(made_of.surfaces[0], made_of.shares)
    unit = gases.gas_unit(fraction, day.air, made_of.unit, emitted)
    limiter = limiter_of(words, gas.name, puldeho.SCALE * made_of.unit / unit)
    return days.DayGas(gas.name, unit, *limiter, gases.loaded(fraction, day.air, made_of.unit, unit)), rates


def exchanges(day, units, rates):
    """What is emitted and withdrawn after each step, in the lowest layer: `rates` are those of each gas's sources."""
    found, start = [], (day.layers - 1) * day.sphere.cells
    sources = [(gas, sign, one, gases.Source(units[gas], day.sphere.cells))
               for gas, numbers in enumerate(rates) for one in numbers for sign in (1, -1) if (sign * one > 0).any()]
    for step in range(len(day.zonal)):
        place, seconds = step // day.parts, (day.end_of(step) - (day.end_of(step - 1) if step else 0.0))
        for gas, sign, one, source in sources:
            amounts = source.step(np.maximum(sign * (one[place] + one[place + 1]) / 2, 0) * seconds)
            cells = np.flatnonzero(amounts)
            if len(cells):
                found.append(days.Exchange(step, gas, start + cells, amounts[cells], sign < 0))
    return found


def add_gases(day, made_of, fields, words):
    """Gives the day its gases and what is emitted and withdrawn."""
    if fields is not made_of.winds:
        timed = len(fields.seconds) > 1
        if not same_grid(fields.sphere, made_of.winds.sphere) or timed and not np.array_equal(fields.seconds, made_of.winds.seconds):
            raise Bad("%s: has another grid or other times than %s" % (fields.path, made_of.winds.path))
    read = gases.read_gases(fields)
    names = [gas.name for gas in read]
    if made_of.after and names != [one.name for one in made_of.after.gases]:
        raise Bad("%s: has the gases %s, and the day before it %s" % (fields.path, names, [one.name for one in made_of.after.gases]))
    unknown = [word for word in words if word.partition("=")[0] not in names]
    if unknown:
        raise Bad("--limiter %s: no such gas; there are %s" % (unknown[0], ", ".join(names)))
    pairs = [day_gas(gas, made_of, day, words) for gas in read]
    day.gases = [one for one, _ in pairs]
    day.exchanges = exchanges(day, [one.unit for one in day.gases], [rates for _, rates in pairs])


def command(given):
    """Makes the day, says what was found, and writes it."""
    after, after_sum = days.read(given.after) if given.after else (None, "")
    with contextlib.ExitStack() as files:
        winds = Winds(files.enter_context(opened(given.winds)), {"u": given.u, "v": given.v, "ps": given.ps})
        fields = Fields(files.enter_context(opened(given.gases))) if given.gases else winds
        made_of = Made(winds, given.air_unit, after)
        made_of.read_fluxes()
        said = []
        trial = steps.choose(made_of.fluxes, winds.sphere, made_of.table, given.steps, given.long_above,
                             after.long_rows if after else None, said.append)
        day = trial.day
        add_gases(day, made_of, fields, given.limiter)
        sources = [given.winds] + ([given.gases] if given.gases else [])
        day.attributes = {
            "air_unit": made_of.unit, "air_reference": float(made_of.columns.total), "time_units": winds.time.units,
            "source": " ".join(sources), "source_sha256": " ".join(map(checksum, sources)), "made_by": "puldeho %s" % puldeho.__version__,
            "made_after": after_sum}
        lines = report(made_of, trial, said)
    with made(given.day) as data:
        days.write(day, data)
    print("\n".join(lines))
    print("written       %s" % given.day)
    return 0

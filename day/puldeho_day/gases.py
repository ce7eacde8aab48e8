"""The gases of a file: mixing ratios at the start, what is emitted and taken up, and their units; then whole numbers with nothing dropped."""
import math
import re

import numpy as np

from .files import Bad
from .fixer import carried
from .winds import capped, cells, in_layers

TOTAL_AIM = 260000000       # units of a gas with all its emissions, below the library's limit 268,435,455
# Kilograms in a mole, of gases whose mole fraction can be told from their name, and of air.
MOLAR = {
    "carbon_dioxide": 0.0440095, "methane": 0.0160425, "carbon_monoxide": 0.0280101, "nitrous_oxide": 0.0440128,
    "ozone": 0.0479982, "sulfur_dioxide": 0.0640638, "sulfur_hexafluoride": 0.1460554, "water_vapor": 0.0180153,
}
MOLAR_AIR = 0.0289652
FRACTION = re.compile(r"(mass|mole)_fraction_of_(.+)_in_air")
SOURCE = "tendency_of_atmosphere_mass_content_of_%s_due_to_"
RATES = ("kg m-2 s-1", "kg/m2/s", "kg m**-2 s**-1", "kg m^-2 s^-1")
PARTS = {"1": 1.0, "kg kg-1": 1.0, "kg/kg": 1.0, "mol mol-1": 1.0, "mol/mol": 1.0, "1e-6": 1e-6, "ppm": 1e-6, "1e-9": 1e-9, "ppb": 1e-9}


class Gas:
    """A gas of a file: its name, its mass fraction at the first time, and its sources in kg a second in the C columns."""

    def __init__(self, fields, one):
        sort, self.name = FRACTION.fullmatch(one.standard_name).groups()
        self.fields, self.variable, unit = fields, one, getattr(one, "units", None)
        if unit not in PARTS:
            raise Bad("%s: %s is in '%s'; known here are %s" % (fields.path, one.name, unit, ", ".join(PARTS)))
        if sort == "mole" and self.name not in MOLAR:
            raise Bad("%s: %s is a mole fraction, and the mass of a mole of %s is not known here; give its mass fraction, or one of %s"
                      % (fields.path, one.name, self.name, ", ".join(sorted(MOLAR))))
        self.factor = PARTS[unit] * (MOLAR[self.name] / MOLAR_AIR if sort == "mole" else 1.0)
        start = SOURCE % self.name
        self.sources = [other for other in fields.data.variables.values() if getattr(other, "standard_name", "").startswith(start)]
        for other in self.sources:
            if getattr(other, "units", None) not in RATES:
                raise Bad("%s: %s is in '%s'; kg m-2 s-1 is wanted" % (fields.path, other.name, getattr(other, "units", None)))

    def fraction(self, surface, shares):
        """Its mass fraction in the C columns of the console's layers: (K, C)."""
        found, layers = self.factor * self.fields.read(self.variable), self.fields.layers_along(self.variable)
        if found.min() < 0:
            raise Bad("%s: %s has a mixing ratio of %g, below 0" % (self.fields.path, self.variable.name, found.min()))
        if found.min() == found.max():
            return np.full((len(shares) - 1, self.fields.sphere.cells), found.flat[0])
        whole, part = (in_layers(layers, numbers, surface, shares) for numbers in (np.ones_like(found), found))
        return cells(capped(part / whole))

    def rates(self, times):
        """Kilograms a second that each source brings to each column at each time, (sources, times, C); less than 0 is taken up."""
        area, clock = self.fields.sphere.areas(), self.fields.plain.get("time")
        found = np.zeros((len(self.sources), times, len(area)))
        for place, one in enumerate(self.sources):
            read = [self.fields.read(one, time if clock in one.dimensions else 0) for time in range(times)]
            found[place] = cells(np.array(read)) * area
        return found


def read_gases(fields):
    """The gases of a file, in its order."""
    named = [one for one in fields.data.variables.values() if FRACTION.fullmatch(getattr(one, "standard_name", ""))]
    found = [Gas(fields, one) for one in named]
    names = [gas.name for gas in found]
    twice = sorted({name for name in names if names.count(name) > 1})
    if twice or not 1 <= len(names) <= 8:
        raise Bad("%s: has %d gases (%s)%s; the console takes 1 to 8, each a variable with a standard name such as "
                  "mass_fraction_of_carbon_dioxide_in_air" % (fields.path, len(names), ", ".join(names) or "none",
                                                              ", %s twice" % ", ".join(twice) if twice else ""))
    return found


def rounded_up(number):
    """The least number of three digits that is not below it."""
    power = 10.0 ** (math.floor(math.log10(number)) - 2)
    return float("%.3g" % (math.ceil(number / power - 1e-9) * power))


def gas_unit(fraction, air, air_unit, emitted):
    """The kilograms of a unit of a gas: as few as its total with all that is emitted allows. A gas at one ratio to air everywhere
    without sources gets a whole number of units for each unit of air, which it then keeps."""
    masses = fraction * air * air_unit
    if fraction.min() == fraction.max() > 0 and emitted == 0 and TOTAL_AIM // int(air.sum()) > 0:
        return fraction.flat[0] * air_unit / (TOTAL_AIM // int(air.sum()))
    total = masses.sum() + emitted
    return rounded_up(total / TOTAL_AIM) if total > 0 else 1.0


def loaded(fraction, air, air_unit, unit):
    """The units of a gas in each cell. Sums from the first cell on are rounded, so that the total is right to half a unit."""
    amounts = fraction * (air * air_unit / unit)
    if fraction.min() == fraction.max():
        return np.rint(amounts).astype(np.int64)
    return carried(amounts.ravel()).reshape(air.shape)


class Source:
    """Whole amounts of one source, step by step: what has been given so far is what was due, to less than a unit in each cell
    and to half a unit in all, and no amount is below 0."""

    def __init__(self, unit, columns):
        self.unit, self.due, self.given = unit, np.zeros(columns), np.zeros(columns, dtype=np.int64)

    def step(self, kilograms):
        """The amounts of a step, of which each column is due so many kilograms."""
        self.due += kilograms / self.unit
        amounts, rest = np.zeros_like(self.given), 0.0
        for cell in np.flatnonzero(self.due):
            rest += self.due[cell] - self.given[cell]
            amounts[cell] = max(0, round(rest))
            rest -= amounts[cell]
        self.given += amounts
        return amounts

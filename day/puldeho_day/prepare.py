"""Winds to whole numbers: units of air, columns, and fluxes whose convergence is the change of the columns to the unit."""
import numpy as np

from . import fixer
from .gases import rounded_up
from .sphere import GRAVITY

CELL_AIM = 50000            # units of air in the largest cell, below the library's limit 65,535, as air rises and falls within a step
SUM_AIM = 250000000         # units of air in all, so that a gas of one unit for each unit of air fits
TABLE_SCALE = 65536


def air_unit(masses, shares):
    """The kilograms of a unit of air: as few as the largest cell and the sum of all air allow, in three digits."""
    return rounded_up(max(masses.max() * np.diff(shares).max() / CELL_AIM, masses[0].sum() / SUM_AIM))


def layer_air(table, columns):
    """The air of each layer (K, C), of columns cut by the table as a remap does."""
    return np.diff(table[:, :1] + table[:, 1:] * columns // TABLE_SCALE, axis=0)


def between(times, seconds):
    """The last time of the file before some seconds that has another after it, and the part of the way from it to that one."""
    place = min(max(int(np.searchsorted(times, seconds, side="right")) - 1, 0), len(times) - 2)
    return place, (seconds - times[place]) / (times[place + 1] - times[place])


class Columns:
    """The whole units of air of each column at any time. Their sum never changes: of the file's surface pressure the change of the
    mean over the globe is taken off. Sums from the south cap on are rounded, so that no column is off by more than a unit."""

    def __init__(self, seconds, masses, areas, unit, reference=None):
        self.seconds = seconds
        total = masses.sum(axis=1)
        self.total = total[0] if reference is None else reference
        self.drift = (total - self.total) / areas.sum() * GRAVITY       # of the mean surface pressure, in Pa
        self.real = (masses - (total - self.total)[:, None] * areas / areas.sum()) / unit
        self.whole_total = int(round(self.total / unit))

    def at(self, seconds):
        """The columns of a time, by the line between the two times of the file around it."""
        place, part = between(self.seconds, seconds)
        sums = np.cumsum((1 - part) * self.real[place] + part * self.real[place + 1])
        edges = np.rint(sums).astype(np.int64)
        edges[-1] = self.whole_total
        return np.diff(edges, prepend=0)


class Fluxes:
    """The fluxes of a day since its start, corrected, in units of air; whole ones for any step of it."""

    def __init__(self, sphere, columns, shares, start):
        self.sphere, self.columns, self.thickness = sphere, columns, np.diff(shares)
        layers = len(self.thickness)
        self.zonal = [np.zeros((layers, sphere.rows, sphere.columns))]
        self.meridional = [np.zeros((layers, sphere.rows + 1, sphere.columns))]
        self.start, self.reached, self.astray = start, start, np.zeros(sphere.cells)

    def add(self, zonal, meridional):
        """The fluxes of the next interval between two times of the file, in units of air, with what the columns miss by them."""
        time = len(self.zonal)
        wanted = self.columns.at(self.columns.seconds[time])
        missing = wanted - self.reached - fixer.convergence(zonal.sum(axis=0), meridional.sum(axis=0))
        self.astray, self.reached = self.astray - missing, wanted
        shared = self.thickness[:, None, None]
        for sums, real, more in zip((self.zonal, self.meridional), (zonal, meridional), fixer.correction(self.sphere, missing)):
            sums.append(sums[-1] + real + shared * more)

    def since_start(self, seconds):
        """Whole fluxes since the start, and the columns then."""
        place, part = between(self.columns.seconds, seconds)
        real = [(1 - part) * sums[place] + part * sums[place + 1] for sums in (self.zonal, self.meridional)]
        columns = self.start if seconds == self.columns.seconds[0] else self.columns.at(seconds)
        return fixer.whole(*real, columns - self.start, self.thickness), columns

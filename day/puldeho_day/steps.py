"""How many steps an interval is made in, so that every sweep is served: the air alone is carried through the library, with no gas."""
import collections

import numpy as np
import puldeho

from .day import Day
from .files import Bad
from .prepare import layer_air

MOST_PARTS = 60


class Trial:
    """What came of carrying a day's air: substeps of each row, Courant numbers, and the first refusal, if there was one."""

    def __init__(self, day):
        self.day, self.refused = day, None
        self.counts, self.row_counts = collections.Counter(), np.zeros(day.sphere.rows, dtype=int)
        self.zonal, self.meridional, self.least = np.zeros(day.sphere.rows), np.zeros(day.sphere.rows + 2), day.air.min()
        self.unlike = 0
        grid = puldeho.Grid(day.sphere.columns, day.sphere.rows, day.layers, 1)
        self.air = day.air.astype(np.uint32)
        self.world = puldeho.World(grid, self.air, np.zeros(grid.tracers_shape, np.uint32))

    def carry(self):
        """Carries the air through the day, or up to the first refusal."""
        for step in range(len(self.day.zonal)):
            self.note_courant(step)
            for call, arguments in self.day.sweeps(step):
                try:
                    self.note(call, arguments, getattr(self.world, call)(*arguments))
                except puldeho.Refused as refused:
                    self.refused = step, refused
                    return self
            self.least = min(self.least, self.air.min())
            if self.day.ends_interval(step):
                wanted = layer_air(self.day.table, self.day.columns[(step + 1) // self.day.parts])
                self.unlike += int((wanted != self.air).sum())
        return self

    def note(self, call, arguments, count):
        """Notes the substeps of a zonal sweep."""
        if call == "zonal":
            self.counts[count] += 1
            self.row_counts[arguments[1]] = max(self.row_counts[arguments[1]], count)

    def note_courant(self, step):
        """Notes the greatest outflow of a cell over its air, in each row, of the step's zonal and of its meridional fluxes."""
        air = self.air.astype(np.float64)
        self.zonal = np.maximum(self.zonal, zonal_courant(air, self.day.zonal[step]))
        flux = self.day.meridional[step].astype(np.float64)
        leaving = np.maximum(flux[:, 1:], 0) + np.maximum(-flux[:, :-1], 0)
        rows = (leaving / air[:, 1:-1].reshape(leaving.shape)).max(axis=(0, 2))
        caps = np.maximum(flux[:, 0], 0).sum(axis=1) / air[:, 0], np.maximum(-flux[:, -1], 0).sum(axis=1) / air[:, -1]
        self.meridional = np.maximum(self.meridional, np.concatenate([[caps[0].max()], rows, [caps[1].max()]]))


def zonal_courant(air, fluxes):
    """The greatest outflow through the two faces of a cell over its air, in each row: R numbers. air is (K, C), fluxes (K, R, W)."""
    leaving = np.maximum(fluxes, 0) + np.maximum(-np.roll(fluxes, 1, axis=-1), 0)
    return (leaving / air[:, 1:-1].reshape(leaving.shape)).max(axis=(0, 2))


def cut(fluxes, sphere, table, parts, long_above, long_rows):
    """The day with each interval in so many steps. Rows whose Courant number is above `long_above` get the long sweep, unless it is
    given which do."""
    seconds = fluxes.columns.seconds
    ends = np.concatenate([seconds[:1]] + [np.linspace(a, b, parts + 1)[1:] for a, b in zip(seconds, seconds[1:])])
    found = [fluxes.since_start(end) for end in ends]
    zonal, meridional = (np.diff(np.array([whole[part] for whole, _ in found]), axis=0) for part in (0, 1))
    columns = np.array([columns for _, columns in found])
    if long_rows is None:
        rows = [zonal_courant(layer_air(table, air).astype(np.float64), flux) for air, flux in zip(columns, zonal)]
        long_rows = np.max(rows, axis=0) > long_above
    return Day(sphere=sphere, table=table, seconds=seconds, columns=columns[::parts], air=layer_air(table, columns[0]),
               zonal=zonal.astype(np.int32), meridional=meridional.astype(np.int32), long_rows=long_rows)


def choose(fluxes, sphere, table, parts, long_above, long_rows=None, said=lambda words: None):
    """The day in the fewest steps with which every sweep is served, or in the given number, and its trial."""
    for tried in [parts] if parts else range(1, MOST_PARTS + 1):
        trial = Trial(cut(fluxes, sphere, table, tried, long_above, long_rows)).carry()
        if trial.refused is None:
            return trial
        step, refused = trial.refused
        said("%d step%s an interval: refused in interval %d: %s" % (tried, "s" * (tried > 1), step // tried, refused))
    raise Bad("no number of steps %s serves; the last refusal: %s" % (parts or "up to %d" % MOST_PARTS, refused))

"""What `puldeho fluxes` says of a day: units, the correction, steps, substeps, Courant numbers near the poles, rows with the long sweep."""
import numpy as np

from .sphere import GRAVITY


def counted(number):
    """A whole number with commas."""
    return "{:,}".format(int(number))


def air_lines(made_of, day):
    """The unit of air, and how near the columns come to the file's surface pressure."""
    areas = day.sphere.areas()
    unit = made_of.unit * GRAVITY / areas / 100
    off = np.abs(day.columns - made_of.columns.real).max(axis=0) * unit
    drift = made_of.columns.drift[[0, -1]] / 100
    yield "air           a unit is %.3g kg; %s to %s units in a cell, %s in all" % (
        made_of.unit, counted(day.air.min()), counted(day.air.max()), counted(day.air.sum()))
    yield "columns       at each time within %.4f hPa of the file's surface pressure, whose mean over the globe is kept at its first value" % off.max()
    yield "              (the file's mean is %.4f hPa above it at the first time and %.4f at the last)" % tuple(drift)
    astray = np.abs(made_of.fluxes.astray) * unit
    yield "correction    without it the air would be off by up to %.2f hPa at the end; with it by 0 units in every column at every time" % astray.max()


def step_lines(trial, said):
    """In how many steps, and what refused fewer; substeps of the sweeps."""
    day, counts = trial.day, trial.counts
    yield from ("              " + words for words in said)
    yield "steps         %d: %d in each of %d intervals; every sweep and remap is served" % (len(day.zonal), day.parts, len(day.seconds) - 1)
    yield "substeps      zonal sweeps: " + (", ".join("%s with %d" % (counted(counts[count]), count) for count in sorted(counts)) or "none")
    long_rows = np.flatnonzero(day.long_rows)
    yield "long sweep    rows %s" % ", ".join(map(str, long_rows)) if len(long_rows) else "long sweep    in no row"


def courant_lines(trial):
    """The Courant numbers of the rows nearest to the poles, and of the caps, with the substeps."""
    day, rows = trial.day, trial.day.sphere.rows
    near = sorted({*range(min(3, rows)), *range(max(0, rows - 3), rows)})
    yield "Courant       row  latitudes        zonal  meridional  sweep"
    yield "              cap  to %5.1f             –  %10.2f" % (day.sphere.edges[0], trial.meridional[0])
    for row in near:
        sweep = "long" if day.long_rows[row] else "zonal, at most %d substeps" % trial.row_counts[row]
        yield "              %3d  %5.1f to %5.1f  %7.2f  %10.2f  %s" % (
            row, day.sphere.edges[row], day.sphere.edges[row + 1], trial.zonal[row], trial.meridional[row + 1], sweep)
    yield "              cap  from %5.1f           –  %10.2f" % (day.sphere.edges[-1], trial.meridional[-1])


def gas_lines(day):
    """The gases: their units, what is loaded, emitted and withdrawn."""
    for place, gas in enumerate(day.gases):
        sums = [sum(int(one.amounts.sum()) for one in day.exchanges if one.gas == place and one.withdrawn == sign) for sign in (False, True)]
        yield "gas %d         %s: a unit is %.6g kg; loaded %s, to be emitted %s, to be withdrawn %s" % (
            place, gas.name, gas.unit, counted(gas.loaded.sum()), counted(sums[0]), counted(sums[1]))


def report(made_of, trial, said):
    """All lines."""
    sphere, day = trial.day.sphere, trial.day
    hours = day.seconds[-1] / 3600
    head = "grid          %d columns, %d rows, %d layers, %d gases; %d times over %g hours" % (
        sphere.columns, sphere.rows, day.layers, len(day.gases), len(day.seconds), hours)
    return [head, *air_lines(made_of, day), *step_lines(trial, said), *courant_lines(trial), *gas_lines(day)]

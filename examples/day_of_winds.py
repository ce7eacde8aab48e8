"""A day of winds: a puff of gas is carried off by a jet, with not a unit lost, and drawn as it goes.

    PYTHONPATH=bindings/python python3 examples/day_of_winds.py [PICTURE.svg]

Needs numpy and the library (tools/library). Where that is installed, PYTHONPATH=$(pkg-config --variable=python puldeho).
The numbers 4, 5 and 88 degrees below, and svg_map, are of this grid. The wind is analytic; the fluxes of a model would take its place.
"""
import collections
import itertools
import math
import sys

import numpy as np
import puldeho
import svg_map

GRID = puldeho.Grid(w=72, r=44, k=3, n=2)       # cells of 5 by 4 degrees, and a cap of 2 degrees round each pole
W, R, K = GRID.w, GRID.r, GRID.k
UNIFORM, PUFF = 0, 1                            # the gases
AIR_UNIT = 6.4e10                               # kg, so that each cell has 1 to 65,535 units, between sweeps too
RADIUS, COLUMN_MASS = 6.371e6, 1e5 / 9.80665    # of the Earth, in m; of the air above a square metre, in kg
TABLE = np.array([(0, 0), (0, 13107), (0, 32768), (0, 65536)], np.uint32)  # layers of 200, 300 and 500 hPa
LAYER_MASS = COLUMN_MASS * np.diff(TABLE[:, 1]).reshape(K, 1, 1) / 65536
STEPS, SECONDS, REMAP_EVERY = 48, 1800, 6       # a day of half-hours; a remap every three hours
CHIMNEY, HOURLY = GRID.cell_number(layer=K - 1, row=34, column=38), 150_000  # its cell, and what it emits

EDGE = np.radians(4.0 * np.arange(R + 1) - 88)[:, None]   # south and north edges of the rows
FACE = np.radians(5.0 * np.arange(1, W + 1) - 180)        # east faces of the columns
LATITUDE = np.radians(np.concatenate([[-90], np.repeat(4.0 * np.arange(R) - 86, W), [90]]))
LONGITUDE = np.radians(np.concatenate([[0], np.tile(5.0 * np.arange(W) - 177.5, R), [0]]))


def nearness(longitude, latitude, east, north):
    """The cosine of the angle to a place given in degrees."""
    east, north = math.radians(east), math.radians(north)
    return np.sin(latitude) * math.sin(north) + np.cos(latitude) * math.cos(north) * np.cos(longitude - east)


def load():
    """The world at the start. Air is by area, in the layers of the table, so that a remap brings it back."""
    bands, cap = math.radians(5) * np.diff(np.sin(EDGE[:, 0])), [2 * math.pi * (1 - math.sin(math.radians(88)))]
    area = RADIUS ** 2 * np.concatenate([cap, np.repeat(bands, W), cap])
    columns = np.rint(area * COLUMN_MASS / AIR_UNIT).astype(np.uint64)
    air = np.diff(TABLE[:, 1:].astype(np.uint64) * columns // 65536, axis=0).astype(np.uint32)
    gases = np.zeros(GRID.tracers_shape, np.uint32)
    gases[UNIFORM] = puldeho.TOTAL_LIMIT // int(air.sum()) * air  # a whole number times air, and as large as fits
    far = (1 - nearness(LONGITUDE, LATITUDE, -110, 50)) / (1 - math.cos(math.radians(15)))
    gases[PUFF] = np.rint(400 * np.maximum(0, 1 - far) ** 2 * air)
    return puldeho.World(GRID, air, gases)          # its calls change these arrays; nothing is copied


def fluxes(hours):
    """Units of air through all faces in one step: eastward (K, R, W), and northward (K, R + 1, W).

    They are differences of a streamfunction, rounded once at each corner of the cells: each cell gets in a step
    exactly what it gives. Only the overturning, as much poleward above as back below, needs the remap.
    Cells beside the poles are only 39 km wide, so steps must be short: with this wind a row there takes 3 substeps
    in steps of half an hour and 8 in steps of an hour, and is refused (more than 16) in steps of 90 minutes.
    """
    speed, tilt = np.array([60.0, 45.0, 20.0]).reshape(K, 1, 1), 0.25 * np.arange(K).reshape(K, 1, 1)
    jet = np.sin(4 * EDGE) / 8 - EDGE / 2           # eastward, speed * sin(2 * latitude)^2
    wave = 0.15 * np.sin(2 * EDGE) ** 2 * np.cos(EDGE) * np.sin(5 * (FACE + tilt - 0.01 * hours))
    vortex = -0.35 * np.exp((nearness(FACE, EDGE, 2 * hours - 60, 76) - 1) / 0.04)  # it blows over the pole
    corner = np.rint(speed * RADIUS * (jet + wave + vortex) * LAYER_MASS * SECONDS / AIR_UNIT).astype(np.int32)
    east, north = corner[:, :-1] - corner[:, 1:], corner - np.roll(corner, 1, axis=2)
    width = RADIUS * np.cos(EDGE) * math.radians(5)
    overturning = np.rint(1.5 * np.sin(6 * EDGE) * width * LAYER_MASS[0] * SECONDS / AIR_UNIT).astype(np.int32)
    north[0] += overturning
    north[K - 1] -= overturning
    return east, north


def step(world, number, calls, substeps):
    """All rows and all layers, in turns the rows first and the layers first; then what is due at this time."""
    east, north = fluxes((number + 0.5) * SECONDS / 3600)
    for rows in (True, False) if number % 2 == 0 else (False, True):
        for layer in range(K):
            if not rows:
                world.meridional(layer, north[layer])
                calls["meridional"] += 1
                continue
            for row in range(R):
                substeps[row] = max(substeps[row], world.zonal(layer, row, east[layer, row]))
                calls["zonal"] += 1
    if (number + 1) * SECONDS % 3600 == 0:
        world.emission(PUFF, CHIMNEY, HOURLY)
        calls["emission"] += 1
    if (number + 1) % REMAP_EVERY == 0:
        world.remap(TABLE)
        calls["remap"] += 1


def centre(gas):
    """Longitude and latitude under the gas's centre of mass, in degrees."""
    parts = np.cos(LATITUDE) * np.cos(LONGITUDE), np.cos(LATITUDE) * np.sin(LONGITUDE), np.sin(LATITUDE)
    x, y, z = (float(np.sum(gas * part)) for part in parts)
    return math.degrees(math.atan2(y, x)), math.degrees(math.atan2(z, math.hypot(x, y)))


def drawn(world, hours, track):
    """A map of the puff, with the wind of the middle layer in m/s."""
    gas, air = (amounts.sum(axis=0, dtype=np.int64) for amounts in (world.tracers[PUFF], world.air))
    east, north = (flux[1] * AIR_UNIT / (float(LAYER_MASS[1, 0, 0]) * SECONDS * RADIUS) for flux in fluxes(hours))
    wind = east / math.radians(4), north / (math.radians(5) * np.cos(EDGE))
    return svg_map.panel(hours // 8, "after %d hours" % hours, gas, air, wind, track, (12.5, 50))


def report(world, start_air, loaded, calls, substeps, track):
    """Prints what was done, and gives whether all amounts agree to the unit."""
    total, emitted = [world.total(UNIFORM), world.total(PUFF)], [0, calls["emission"] * HOURLY]
    air, gas = world.air.astype(np.int64), world.tracers[UNIFORM].astype(np.int64)  # to subtract, signed
    ratio = puldeho.TOTAL_LIMIT // int(start_air.sum())
    off, moved = int(np.abs(gas - ratio * air).max()), int(np.abs(air - start_air).max())
    print("accepted      " + ", ".join("%d %s" % (calls[name], name) for name in sorted(calls)))
    for most, rows in itertools.groupby(range(R), key=lambda row: substeps[row]):
        souths = [4 * row - 88 for row in rows]
        print("substeps      at most %d (of 16) from %d to %d degrees north" % (most, souths[0], souths[-1] + 4))
    print("air           %d to %d units in a cell; off from the loaded by at most %d" % (air.min(), air.max(), moved))
    print("uniform gas   %d units to a unit of air in each cell; off from it by at most %d" % (ratio, off))
    for name, *amounts in zip(("uniform gas", "puff"), loaded, emitted, total):
        print("%-13s loaded %d + emitted %d, total now %d" % (name, *amounts))
    for when, (east, north) in (("start", track[0]), ("end", track[-1])):
        print("puff's centre at the %s: %.1f degrees north, %.1f east" % (when, north, east))
    agree = off == moved == 0 and total == [a + b for a, b in zip(loaded, emitted)]
    print("all amounts agree to the unit" if agree else "THE AMOUNTS DIFFER")
    return agree


def main(path="day_of_winds.svg"):
    world = load()
    start_air, loaded = world.air.copy(), [world.total(UNIFORM), world.total(PUFF)]
    calls, substeps, track = collections.Counter(), [0] * R, [centre(world.tracers[PUFF])]
    panels = [drawn(world, 0, track)]
    for number in range(STEPS):
        step(world, number, calls, substeps)
        track.append(centre(world.tracers[PUFF]))
        if (number + 1) % (STEPS // 3) == 0:
            panels.append(drawn(world, (number + 1) * SECONDS // 3600, track))
    with open(path, "w", encoding="ascii") as file:
        file.write(svg_map.picture("A day of winds: where a puff of gas goes", panels))
    return report(world, start_air, loaded, calls, substeps, track)


if __name__ == "__main__":
    try:
        sys.exit(0 if main(*sys.argv[1:]) else 1)
    except puldeho.Refused as refused:
        sys.exit("day_of_winds: %s" % refused)

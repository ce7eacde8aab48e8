"""Makes a day of winds, surface pressure and gases, as a NetCDF file with CF names, from nothing but this text and a seed.

    /usr/bin/python3 make_day.py DAY.nc [COLUMNS ROWS LAYERS HOURS]      # 72 44 8 24 if not given

The wind turns the globe's air over both poles, once in twelve days, and a wave of four crests travels east in it. The surface
pressure has travelling waves of its own, which do not agree with the wind, as those of analyses do not. Argon is even everywhere;
carbon dioxide has sources and a sink; sulfur hexafluoride is a hill beside the equator, and nothing elsewhere.
Needs Debian's packages python3-numpy and python3-netcdf4. Winds are rounded to 0.001 m/s, so that every machine makes the same.
"""
import math
import random
import sys

import netCDF4
import numpy as np

SEED = 1994
RADIUS, TURN = 6.371e6, 12 * 86400.0
WIND = 2 * math.pi * RADIUS / TURN              # of the rotation, in m/s
WAVE, CRESTS, TRAVEL = 12.0, 4, math.radians(15)    # of the travelling wave: m/s, crests, and how far it goes in a day
START = "2026-01-01 00:00:00"


def grid(columns, rows):
    """Longitudes, latitudes with a pole at either end, and both in radians as (rows + 2, columns)."""
    longitude, latitude = np.arange(columns) * 360.0 / columns, -90 + np.arange(rows + 2) * 180.0 / (rows + 1)
    return longitude, latitude, *np.meshgrid(np.radians(longitude), np.radians(latitude))


def winds(east, north, level, days):
    """u and v in m/s: solid-body rotation over the poles, and a wave of a streamfunction that travels east."""
    phase = CRESTS * (east - TRAVEL * days) + level
    u = WIND * np.sin(north) * np.cos(east) + 4 * WAVE / CRESTS * np.cos(north) ** 3 * np.sin(north) * np.sin(phase)
    v = -WIND * np.sin(east) + WAVE * np.cos(north) ** 3 * np.cos(phase)
    return (1.3 - 0.7 * level) * u, (1.3 - 0.7 * level) * v


def surface_pressure(east, north, days, waves):
    """In Pa: a mean that rises a little in the day, and waves that travel at speeds of their own."""
    found = np.full(east.shape, 98500.0 + 5 * days)
    for crests, size, start, travel in waves:
        found += size * np.cos(north) ** crests * np.cos(crests * (east - travel * days) + start)
    return found


def near(east, north, longitude, latitude, degrees):
    """1 at a place, falling to 0 so many degrees away."""
    a, b = math.radians(longitude), math.radians(latitude)
    cosine = np.sin(north) * math.sin(b) + np.cos(north) * math.cos(b) * np.cos(east - a)
    return np.maximum(0, 1 - np.arccos(np.clip(cosine, -1, 1)) / math.radians(degrees)) ** 2


def put(data, name, dimensions, numbers, kind="f4", **attributes):
    one = data.createVariable(name, kind, dimensions, zlib=True)
    one.setncatts(attributes)
    one[...] = numbers


def put_gases(data, east, north, level):
    """Mass fractions at the start, and the sources and the sink of carbon dioxide, in kg for each square metre and second."""
    even = np.ones((len(level), 1, 1))
    fields = {
        "argon": 0.0129 * even * np.ones(east.shape),
        "carbon_dioxide": 6.2e-4 * even * (1 + 0.01 * np.sin(north)),
        "sulfur_hexafluoride": 5e-11 * (0.3 + level.reshape(-1, 1, 1)) * near(east, north, 270, 2, 35),
    }
    for short, (name, field) in zip(("ar", "co2", "sf6"), fields.items()):
        put(data, short, ("lev", "lat", "lon"), np.round(field, 15), "f8", standard_name="mass_fraction_of_%s_in_air" % name, units="kg kg-1")
    cities = near(east, north, 10, 50, 20) + near(east, north, 115, 35, 25) + near(east, north, 275, 40, 20)
    tendency = "tendency_of_atmosphere_mass_content_of_carbon_dioxide_due_to_"
    put(data, "co2_emission", ("lat", "lon"), np.round(1.2e-7 * cities, 12), "f8", standard_name=tendency + "emission", units="kg m-2 s-1")
    put(data, "co2_uptake", ("lat", "lon"), np.round(-6e-8 * near(east, north, 300, -5, 30), 12), "f8",
        standard_name=tendency + "net_biospheric_flux", units="kg m-2 s-1", comment="below 0 is uptake")


def main(path, columns=72, rows=44, layers=8, hours=24):
    longitude, latitude, east, north = grid(columns, rows)
    edges = np.round((np.arange(layers + 1) / layers) ** 1.2, 4)
    level, times, draw = (edges[1:] + edges[:-1]) / 2, np.arange(hours + 1.0), random.Random(SEED)
    waves = [(crests, 600 + 900 * draw.random(), 6.28 * draw.random(), 0.2 + 0.4 * draw.random()) for crests in (1, 2, 3, 5)]
    with netCDF4.Dataset(path, "w") as data:
        data.Conventions, data.title = "CF-1.8", "A synthetic day for Puldeho: rotation over the poles and a travelling wave, seed %d" % SEED
        for name, size in (("time", hours + 1), ("lev", layers), ("lat", rows + 2), ("lon", columns), ("bnds", 2)):
            data.createDimension(name, size)
        put(data, "time", ("time",), times, "f8", standard_name="time", units="hours since " + START)
        put(data, "lat", ("lat",), latitude, "f8", standard_name="latitude", units="degrees_north")
        put(data, "lon", ("lon",), longitude, "f8", standard_name="longitude", units="degrees_east")
        put(data, "lev", ("lev",), level, "f8", standard_name="atmosphere_sigma_coordinate", bounds="lev_bnds", formula_terms="sigma: lev ps: ps")
        put(data, "lev_bnds", ("lev", "bnds"), np.stack([edges[:-1], edges[1:]], axis=1), "f8")
        fields = [[winds(east, north, one, time / 24) for one in level] for time in times]
        for part, name, standard in ((0, "u", "eastward_wind"), (1, "v", "northward_wind")):
            numbers = np.round([[both[part] for both in field] for field in fields], 3)
            put(data, name, ("time", "lev", "lat", "lon"), numbers, standard_name=standard, units="m s-1")
        pressure = np.round([surface_pressure(east, north, time / 24, waves) for time in times], 1)
        put(data, "ps", ("time", "lat", "lon"), pressure, standard_name="surface_air_pressure", units="Pa")
        put_gases(data, east, north, level)


if __name__ == "__main__":
    if len(sys.argv) not in (2, 6):
        sys.exit(__doc__)
    main(sys.argv[1], *map(int, sys.argv[2:]))

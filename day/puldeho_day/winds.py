"""A day of winds as such files come: CF names and units, on the console's grid. What is missing or strange is told by file and variable."""
import re

import numpy as np

from .files import Bad, values, variable
from .layers import Layers, in_pascals, regrouped
from .sphere import GRAVITY, Sphere

# Usual names where a file has no standard names.
USUAL = {
    "eastward_wind": ("u", "ua", "U"),
    "northward_wind": ("v", "va", "V"),
    "surface_air_pressure": ("ps", "sp", "PS"),
    "latitude": ("lat", "latitude"),
    "longitude": ("lon", "longitude"),
    "time": ("time",),
}
OPTIONS = {"eastward_wind": "--u", "northward_wind": "--v", "surface_air_pressure": "--ps"}
SPEEDS = ("m s-1", "m/s", "m s**-1", "m s^-1", "m.s-1", "meter second-1", "meters per second")
SECONDS = {"second": 1, "minute": 60, "hour": 3600, "day": 86400, "sec": 1, "min": 60, "hr": 3600, "h": 3600, "s": 1, "d": 86400}
LIKELY = (30000.0, 115000.0)    # between which a surface pressure lies, in Pa
FASTEST = 300.0                 # m/s, above any wind


def find(data, standard, given=None):
    """The variable with a standard name, or with one of its usual names, or with the given name."""
    if given:
        return variable(data, given)
    named = [one for one in data.variables.values() if getattr(one, "standard_name", None) == standard]
    found = named or [data.variables[name] for name in USUAL[standard] if name in data.variables][:1]
    if not found:
        raise Bad("%s: no variable has the standard name %s, nor the name %s; it has %s"
                  % (data.filepath(), standard, " or ".join(USUAL[standard]), ", ".join(sorted(data.variables)) or "none"))
    if len(found) > 1:
        raise Bad("%s: %s are all %s; name one with %s"
                  % (data.filepath(), ", ".join(one.name for one in found), standard, OPTIONS.get(standard, "one standard name")))
    return found[0]


class Fields:
    """The fields of a file: its grid on the globe, its layers and its times, and each field as the console has it."""

    def __init__(self, data):
        self.data, self.path = data, data.filepath()
        self.latitude, self.longitude = find(data, "latitude"), find(data, "longitude")
        self.time = find(data, "time") if "time" in data.dimensions or "time" in data.variables else None
        self.plain = {name: self.dimension(one) for name, one in (("time", self.time), ("row", self.latitude), ("column", self.longitude)) if one}
        self.seconds = self.read_times() if self.time else np.zeros(1)
        self.sphere = self.read_sphere()

    def dimension(self, coordinate):
        """The dimension along which a coordinate runs."""
        if len(coordinate.dimensions) > 1:
            raise Bad("%s: %s has %d dimensions, and one is wanted; another grid than the console's?"
                      % (self.path, coordinate.name, len(coordinate.dimensions)))
        return coordinate.dimensions[0] if coordinate.dimensions else None

    def layers_along(self, one):
        """The layers of a variable: the dimension that is none of time, latitude and longitude."""
        left = [name for name in one.dimensions if name not in self.plain.values()]
        if len(left) != 1:
            wanted = [self.plain[name] for name in ("time", "row", "column") if self.plain.get(name)]
            raise Bad("%s: %s has the dimensions %s; wanted are %s and one of layers"
                      % (self.path, one.name, ", ".join(one.dimensions) or "of one number", ", ".join(wanted)))
        return Layers(self.data, left[0])

    def read_times(self):
        """The times in seconds from the first on."""
        numbers, units = np.atleast_1d(values(self.data, self.time)), getattr(self.time, "units", "")
        found = re.match(r"(\w+?)s? since (.+)", units)
        if not found or found.group(1) not in SECONDS:
            raise Bad("%s: %s is in '%s'; wanted is a unit such as 'hours since 2026-01-01 00:00:00'" % (self.path, self.time.name, units))
        seconds = (numbers - numbers[:1]) * SECONDS[found.group(1)]
        if (np.diff(seconds) <= 0).any():
            raise Bad("%s: the times of %s do not come one after the other" % (self.path, self.time.name))
        return seconds

    def read_sphere(self):
        """The grid on the globe. The first and the last latitude are those of the caps."""
        longitude, latitude = values(self.data, self.longitude), values(self.data, self.latitude)
        columns, rows = len(longitude), len(latitude) - 2
        if not 4 <= columns <= 72 or not 1 <= rows <= 44:
            raise Bad("%s: %s has %d values and %s %d; the console takes 4 to 72 columns and 1 to 44 rows with a cap at either end, "
                      "so 3 to 46 latitudes" % (self.path, self.longitude.name, columns, self.latitude.name, rows + 2))
        width = 360.0 / columns
        if np.abs(np.diff(longitude) - width).max() > 1e-3 * width:
            raise Bad("%s: %s does not go once round the globe, eastward in %d even steps" % (self.path, self.longitude.name, columns))
        self.southward = bool(latitude[0] > latitude[-1])
        edges = self.row_edges(latitude[::-1] if self.southward else latitude)
        return Sphere(columns, (longitude[0] - width / 2 + 180) % 360 - 180, edges)

    def row_edges(self, latitude):
        """The edges of the rows, which are equally high; a cap reaches from its pole to the first edge."""
        middles = latitude[1:-1]
        steps = np.diff(middles) if len(middles) > 1 else np.array([latitude[2] - latitude[0]]) / 2
        height = steps.mean()
        edges = np.append(middles - height / 2, middles[-1] + height / 2)
        even = np.abs(steps - height).max() <= 1e-3 * height
        if not (even and -90 <= latitude[0] < edges[0] < edges[-1] < latitude[-1] <= 90):
            raise Bad("%s: %s is not that of a cap, %d rows of equal height and a cap" % (self.path, self.latitude.name, len(middles)))
        return edges

    def read(self, one, time=0):
        """A variable at a time, as (K, R + 2, W), or as (R + 2, W) if it has no layers: from the top down, from south to north."""
        names, clock = list(one.dimensions), self.plain.get("time")
        found = values(self.data, one, tuple(time if name == clock else slice(None) for name in names))
        names = [name for name in names if name != clock]
        rows = [self.plain["row"], self.plain["column"]]
        if not set(rows) <= set(names) or len(names) > 3:
            raise Bad("%s: %s has the dimensions %s; wanted are %s" % (self.path, one.name, ", ".join(one.dimensions), ", ".join(rows)))
        found = np.transpose(found, [names.index(name) for name in [name for name in names if name not in rows] + rows])
        found = found[..., ::-1, :] if self.southward else found
        return found[::-1] if len(names) == 3 and self.layers_along(one).upward else found


class Winds(Fields):
    """Winds and surface pressure at two or more times."""

    def __init__(self, data, names):
        super().__init__(data)
        self.eastward, self.northward = find(data, "eastward_wind", names.get("u")), find(data, "northward_wind", names.get("v"))
        self.pressure = find(data, "surface_air_pressure", names.get("ps"))
        if len(self.seconds) < 2:
            raise Bad("%s: has one time or none; winds and surface pressure at two or more times are wanted" % self.path)
        for wind in (self.eastward, self.northward):
            self.check_wind(wind)
        self.layers = self.layers_along(self.eastward)

    def check_wind(self, wind):
        """Fails unless a wind is in m/s, at the times of the surface pressure."""
        unit = getattr(wind, "units", None)
        if unit not in SPEEDS:
            raise Bad("%s: %s %s; m s-1 is wanted" % (self.path, wind.name, "has no units" if unit is None else "is in '%s'" % unit))
        if "time: mean" in getattr(wind, "cell_methods", ""):
            raise Bad("%s: %s is a mean over time; winds at the times of %s are wanted" % (self.path, wind.name, self.pressure.name))
        for one in (wind, self.pressure):
            if self.plain["time"] not in one.dimensions:
                raise Bad("%s: %s has no times; wanted is one for each of %s" % (self.path, one.name, self.time.name))

    def surface(self, time):
        """The surface pressure in Pa of a time, as (R + 2, W), in a cap everywhere its mean."""
        found = capped(in_pascals(self.data, self.pressure, self.read(self.pressure, time)))
        if not LIKELY[0] < found.min() <= found.max() < LIKELY[1]:
            raise Bad("%s: %s is from %g to %g Pa by its unit '%s', and is no surface pressure then"
                      % (self.path, self.pressure.name, found.min(), found.max(), self.pressure.units))
        return found

    def masses(self, surface):
        """The kilograms of air of each column, C numbers."""
        pressures = self.layers.pressures(surface)
        return cells(pressures[-1] - pressures[0]) * self.sphere.areas() / GRAVITY

    def fluxes(self, time, surface, shares):
        """Kilograms of air a second through all faces, in the console's layers: eastward (K, R, W), northward (K, R + 1, W)."""
        east, north = self.read_wind(self.eastward, time), self.read_wind(self.northward, time)
        east, north = (east + np.roll(east, -1, axis=-1))[:, 1:-1] / 2, (north[:, 1:] + north[:, :-1]) / 2
        east_surface, north_surface = (surface + np.roll(surface, -1, axis=-1))[1:-1] / 2, (surface[1:] + surface[:-1]) / 2
        lengths = self.sphere.zonal_lengths(), self.sphere.meridional_lengths()
        return tuple(in_layers(self.layers, wind, pressure, shares) * length / GRAVITY
                     for wind, pressure, length in zip((east, north), (east_surface, north_surface), lengths))

    def read_wind(self, one, time):
        """A wind of a time; one faster than any is a mistake."""
        found = self.read(one, time)
        if np.abs(found).max() > FASTEST:
            raise Bad("%s: %s has a wind of %g m/s at time %d (counted from 0)" % (self.path, one.name, np.abs(found).max(), time))
        return found


def in_layers(layers, numbers, surface, shares):
    """Numbers (K, ..) for each Pa of a file's layers, summed over the console's layers, whose shares of a column are given."""
    edges = layers.pressures(surface)
    wanted = edges[0] + shares.reshape(-1, 1, 1) * (edges[-1] - edges[0])
    return regrouped(numbers * np.diff(edges, axis=0), edges, wanted)


def capped(field):
    """A field (.., R + 2, W) whose first and last row have everywhere their mean, as a cap is one cell."""
    found = np.array(field, dtype=np.float64)
    found[..., 0, :], found[..., -1, :] = found[..., 0, :].mean(axis=-1)[..., None], found[..., -1, :].mean(axis=-1)[..., None]
    return found


def cells(field):
    """A field (.., R + 2, W) as numbers of the C cells: a cap is the mean of its row."""
    rows = field[..., 1:-1, :]
    caps = field[..., [0], :].mean(axis=-1), field[..., [-1], :].mean(axis=-1)
    return np.concatenate([caps[0], rows.reshape(rows.shape[:-2] + (-1,)), caps[1]], axis=-1)

"""The layers of a file, whatever its coordinate: edge j has the pressure a + b * surface pressure in Pa, and at most that of the surface."""
import numpy as np

from .files import Bad, values, variable

PASCALS = {"Pa": 1.0, "hPa": 100.0, "mbar": 100.0, "mb": 100.0, "millibar": 100.0, "millibars": 100.0}
REFERENCE = 101325.0    # the surface pressure by which the layers' shares of a column are found, in Pa


def terms(one):
    """The terms of a CF formula, as {"ap": "ap_bnds", "b": "b_bnds"}."""
    words = getattr(one, "formula_terms", "").split()
    return dict(zip((word.rstrip(":") for word in words[::2]), words[1::2]))


def joined(data, one):
    """The K + 1 edges of K pairs of bounds, which must follow each other."""
    pairs = values(data, one)
    for found in (pairs, pairs[:, ::-1]):
        if np.allclose(found[1:, 0], found[:-1, 1]):
            return np.append(found[:, 0], found[-1, 1])
    raise Bad("%s: the layers of %s do not follow each other without gaps" % (data.filepath(), one.name))


def in_pascals(data, one, numbers):
    """Numbers of a variable in Pa, by its unit."""
    unit = getattr(one, "units", None)
    if unit not in PASCALS:
        raise Bad("%s: %s is in '%s'; a pressure in %s is wanted" % (data.filepath(), one.name, unit, " or ".join(PASCALS)))
    return numbers * PASCALS[unit]


def scalar(data, name):
    """A pressure that is one number, in Pa."""
    one = variable(data, name)
    return float(in_pascals(data, one, values(data, one)).ravel()[0])


def hybrid(data, names, edges):
    """a and b of hybrid layers: a as a pressure (ap), or as a share of p0 (a); `edges` takes the edges out of a variable."""
    b = edges(data, variable(data, names["b"]))
    if "ap" in names:
        one = variable(data, names["ap"])
        return in_pascals(data, one, edges(data, one)), b
    return edges(data, variable(data, names["a"])) * scalar(data, names["p0"]), b


def by_name(data):
    """a and b of hybrid layers from hyai and hybi, as weather centres name them; None if they are not there."""
    if not {"hyai", "hybi"} <= set(data.variables):
        return None
    plain = getattr(data.variables["hyai"], "units", "1") in ("1", "", "level")
    names = {"a": "hyai", "p0": "P0", "b": "hybi"} if plain else {"ap": "hyai", "b": "hybi"}
    return hybrid(data, names, values)


def by_coordinate(data, level):
    """a and b from a coordinate variable: sigma or hybrid layers with bounds, or pressures; None if it is none of these."""
    sort = getattr(level, "standard_name", "")
    if sort == "air_pressure" or getattr(level, "units", None) in PASCALS:
        middles = in_pascals(data, level, values(data, level))
        between = np.sort((middles[1:] + middles[:-1]) / 2)
        found = np.concatenate([[0.0], between, [0.0]]), np.append(np.zeros(len(middles)), 1.0)
        return found if middles[0] < middles[-1] else (found[0][::-1], found[1][::-1])
    if not hasattr(level, "bounds"):
        return None
    bounds = variable(data, level.bounds)
    names = {**terms(level), **terms(bounds)}
    if sort == "atmosphere_sigma_coordinate":
        sigma, top = joined(data, bounds), scalar(data, names["ptop"]) if "ptop" in names else 0.0
        return top * (1 - sigma), sigma
    if sort == "atmosphere_hybrid_sigma_pressure_coordinate" and "b" in terms(bounds):
        return hybrid(data, terms(bounds), joined)
    return None


class Layers:
    """a and b of the edges from the top down, and whether the file has its layers from the bottom up."""

    def __init__(self, data, dimension):
        level = data.variables.get(dimension)
        found = (level is not None and by_coordinate(data, level)) or by_name(data)
        if not found:
            raise Bad("%s: %s: the edges of the layers are not found; wanted are bounds with the formula_terms of sigma or hybrid layers, "
                      "or hyai and hybi, or a pressure for each layer" % (data.filepath(), dimension))
        self.upward = bool(found[0][0] + found[1][0] * REFERENCE > found[0][-1] + found[1][-1] * REFERENCE)
        self.a, self.b = (numbers[::-1] if self.upward else numbers for numbers in found)
        reference, count = self.pressures(np.float64(REFERENCE)), len(self.a) - 1
        if count != data.dimensions[dimension].size or not 1 <= count <= 32 or (np.diff(reference) <= 0).any():
            raise Bad("%s: %s has %d layers with edges at %s Pa; wanted are 1 to 32 layers one below the other, with an edge more than layers"
                      % (data.filepath(), dimension, data.dimensions[dimension].size, ", ".join("%.0f" % one for one in reference)))
        if abs(reference[-1] - REFERENCE) > 1e-6 * REFERENCE:
            raise Bad("%s: %s: the lowest layer ends at %.0f Pa and not at the surface" % (data.filepath(), dimension, reference[-1]))

    def pressures(self, surface):
        """Of all edges, over a surface pressure of any shape: (K + 1, ..)."""
        shape = (-1,) + (1,) * np.ndim(surface)
        return np.minimum(self.a.reshape(shape) + self.b.reshape(shape) * surface, surface)

    def table(self):
        """The remap's table: a = 0, and as b the share of a column above each edge, over the reference pressure, in parts of 65,536."""
        reference = self.pressures(np.float64(REFERENCE))
        shares = np.rint(65536 * (reference - reference[0]) / (reference[-1] - reference[0])).astype(np.int64)
        if (np.diff(shares) <= 0).any():
            raise Bad("a layer has less than 1/65,536 of a column's air; join it with the next one")
        return np.stack([np.zeros_like(shares), shares], axis=1)


def regrouped(amounts, edges, wanted):
    """What lies between the wanted edges, of amounts (K, ..) spread evenly between edges (K + 1, ..); wanted edges are (J + 1, ..)."""
    above = [sum(amounts[k] * share(wanted[j], edges[k], edges[k + 1]) for k in range(len(amounts))) for j in range(len(wanted))]
    return np.diff(np.array(above), axis=0)


def share(edge, top, bottom):
    """Which share of the layer from top to bottom lies above an edge; a layer without thickness has none."""
    thickness = bottom - top
    return np.clip(edge - top, 0, thickness) / np.where(thickness > 0, thickness, 1)

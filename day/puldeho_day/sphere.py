"""The grid on the globe: edges, areas, lengths of faces, in radians and metres; a row's cells are all alike."""
import numpy as np

RADIUS = 6.371e6        # of the Earth, in m
GRAVITY = 9.80665       # in m/s2


class Sphere:
    """W columns from a west edge on, rows between latitudes, and a cap beyond the first and beyond the last row's edge."""

    def __init__(self, columns, west, edges):
        self.columns, self.west, self.edges = columns, float(west), np.asarray(edges, dtype=np.float64)
        self.rows = len(self.edges) - 1
        self.width = 2 * np.pi / columns
        self.radians = np.radians(self.edges)
        self.height = np.diff(self.radians)

    @property
    def cells(self):
        """C, the cells of a layer."""
        return 2 + self.rows * self.columns

    @property
    def latitudes(self):
        """Of the caps, the poles, and of the rows their middles, in degrees: R + 2 numbers."""
        return np.concatenate([[-90.0], (self.edges[1:] + self.edges[:-1]) / 2, [90.0]])

    def areas(self):
        """Of the C cells of a layer, in m2."""
        sines = np.sin(self.radians)
        caps = 2 * np.pi * RADIUS ** 2 * np.array([1 + sines[0], 1 - sines[-1]])
        rows = np.repeat(RADIUS ** 2 * self.width * np.diff(sines), self.columns)
        return np.concatenate([caps[:1], rows, caps[1:]])

    def zonal_lengths(self):
        """Of a row's faces between its columns, in m, as (R, 1)."""
        return RADIUS * self.height[:, None]

    def meridional_lengths(self):
        """Of the faces on an edge of rows, in m, as (R + 1, 1)."""
        return RADIUS * self.width * np.cos(self.radians)[:, None]

    def conductances(self):
        """Length of a face over the distance across it: between the columns of a row (R), and across the edges (R + 1)."""
        middles = np.radians(self.latitudes)
        along = self.height / (self.width * np.cos(middles[1:-1]))
        return along, self.width * np.cos(self.radians) / np.diff(middles)

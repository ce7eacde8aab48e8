"""The pressure fixer: fluxes corrected so that their convergence is the wanted change of air, and made whole without losing that.

Zonal fluxes are (.., R, W), eastward; meridional ones (.., R + 1, W), northward; a change of air is one number for each of the C columns.
"""
import numpy as np


def convergence(zonal, meridional):
    """What each column gets less what it gives: C numbers."""
    rows = np.roll(zonal, 1, axis=-1) - zonal + meridional[:-1] - meridional[1:]
    return np.concatenate([[-meridional[0].sum()], rows.ravel(), [meridional[-1].sum()]])


def through_edges(change, columns):
    """What must cross each edge of rows northward, in all its faces together: what the cells south of it lose. R + 1 numbers."""
    rows = change[1:-1].reshape(-1, columns).sum(axis=1)
    return -np.cumsum(np.concatenate([change[:1], rows]))


def potential(sphere, missing):
    """The potential whose differences, times the conductances, bring each column what it misses: south cap, (R, W), north cap.

    Along a row the equation has constant coefficients, so each zonal wave is solved by itself, over the rows. The mean of a row,
    wave 0, follows from what must cross the edges. The missing air of all columns together must be 0.
    """
    along, across = sphere.conductances()
    waves = np.fft.rfft(missing[1:-1].reshape(sphere.rows, sphere.columns), axis=1).T
    angles = 2 * np.pi * np.arange(waves.shape[0]) / sphere.columns
    matrix = np.zeros((len(angles), sphere.rows, sphere.rows))
    row = np.arange(sphere.rows)
    matrix[:, row, row] = np.outer(2 - 2 * np.cos(angles), along) + across[:-1] + across[1:]
    matrix[:, row[1:], row[:-1]] = matrix[:, row[:-1], row[1:]] = -across[1:-1]
    solved = np.linalg.solve(matrix[1:], -waves[1:, :, None])[:, :, 0]
    means = np.cumsum(-through_edges(missing, sphere.columns) / across)
    spectrum = np.concatenate([means[None, :-1], solved]).T
    return 0.0, np.fft.irfft(spectrum, sphere.columns, axis=1), means[-1] / sphere.columns


def correction(sphere, missing):
    """The zonal and meridional fluxes that bring each column what it misses, as smooth as can be."""
    along, across = sphere.conductances()
    south, rows, north = potential(sphere, missing)
    bands = np.concatenate([np.full((1, sphere.columns), south), rows, np.full((1, sphere.columns), north)])
    return along[:, None] * (rows - np.roll(rows, -1, axis=1)), across[:, None] * (bands[:-1] - bands[1:])


def carried(numbers):
    """Whole numbers of which each sum from the first on is that of the given ones, rounded: the remainder is carried, not dropped."""
    return np.diff(np.rint(np.cumsum(numbers, axis=0)).astype(np.int64), axis=0, prepend=0)


def whole_columns(zonal, meridional, change):
    """Whole fluxes, summed over layers, that change each column's air by exactly the given whole numbers, and are near the given fluxes.

    On an edge of rows the sums from column 0 on are rounded, so that no run of its faces is off by more than a unit. What the
    zonal fluxes must then be follows from the change, up to one number for each row.
    """
    columns = zonal.shape[1]
    through = through_edges(change, columns)
    sums = np.cumsum(meridional, axis=1)
    sums += (through - sums[:, -1])[:, None] * np.arange(1, columns + 1) / columns
    north = np.diff(np.rint(sums).astype(np.int64), axis=1, prepend=0)
    rise = np.cumsum(north[:-1] - north[1:] - change[1:-1].reshape(-1, columns), axis=1)
    return rise + np.rint((zonal - rise).mean(axis=1)).astype(np.int64)[:, None], north


def whole_layers(layers, total, shares):
    """Whole fluxes for each layer that sum to the whole total: what the total differs by is shared by thickness, and the sums from
    the top down are rounded."""
    shape = (-1,) + (1,) * total.ndim
    sums = np.cumsum(layers + (total - layers.sum(axis=0)) * shares.reshape(shape), axis=0)
    edges = np.rint(sums).astype(np.int64)
    edges[-1] = total
    return np.diff(edges, axis=0, prepend=0)


def whole(zonal, meridional, change, shares):
    """Whole fluxes of all layers (K, R, W) and (K, R + 1, W), whose sums over layers change each column's air by exactly `change`."""
    east, north = whole_columns(zonal.sum(axis=0), meridional.sum(axis=0), change)
    return whole_layers(zonal, east, shares), whole_layers(meridional, north, shares)

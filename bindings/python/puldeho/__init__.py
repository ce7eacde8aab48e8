"""Puldeho, the transport core of the tracer console: the proved library from Python.

    import numpy, puldeho
    grid = puldeho.Grid(w=4, r=1, k=1, n=1)
    air = numpy.full(grid.air_length, 100, dtype=numpy.uint32)
    tracers = numpy.array([0, 0, 100, 200, 100, 0], dtype=numpy.uint32)
    world = puldeho.World(grid, air, tracers)
    substeps = world.zonal(0, 0, [0, 50, 0, 0])
    print(substeps, world.total(0), tracers[3])

A call changes the given arrays in place. A refused call raises Refused and changes nothing.
docs/GUIDE.md explains grid, units, fluxes and refusals.
"""
from . import calls
from .calls import *
from .world import Grid, Refused, World

__version__ = calls.VERSION
__all__ = calls.__all__ + ["Grid", "Refused", "World", "__version__"]

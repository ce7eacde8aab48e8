"""The program of kept.c in Python, kept unchanged from the first version on."""
import array

import puldeho


def make_calls(world):
    """Every call once, accepted."""
    grid = world.grid
    world.emission(1, grid.cell_number(1, 1, 3), 1000)
    print("emission: accepted")
    world.withdrawal(1, grid.south_cap(1), 20)
    print("withdrawal: accepted")
    substeps = world.zonal(0, 1, [150, 160, 140, 155])
    print("zonal: accepted\nsubsteps: %d" % substeps)
    substeps = world.meridional(1, array.array("i", [5, -4, 3, 2, 10, 9, -8, 7, -6, 5, 4, -3]))
    print("meridional: accepted\nsubsteps: %d" % substeps)
    pairs = world.remap([0, 0, 0, 32768, 0, 65536])
    print("remap: accepted\npairs: %d" % pairs)
    print("total: accepted\nunits: %d" % world.total(1))
    print("cell: accepted\nunits: %d" % world.cell(0, grid.north_cap(1)))


def refused(call, *arguments):
    """The number of a refusal; a call that is accepted ends the program."""
    try:
        call(*arguments)
    except puldeho.Refused as refusal:
        return refusal.number
    raise SystemExit("%s was accepted" % call.__name__)


def make_refused_calls(world):
    """Calls that are refused."""
    print("an absent cell: %d" % refused(world.emission, 0, 20, 1))
    print("more than a cell has: %d" % refused(world.withdrawal, 0, 0, 4000000))
    print("three fluxes: %d" % refused(world.zonal, 0, 0, [0, 1000, 0]))
    print("a flux too large: %d" % refused(world.zonal, 0, 0, [0, 1048561, 0, 0]))
    print("a cell would empty: %d, substeps 0" % refused(world.zonal, 0, 0, [0, 1000, 0, 0]))


def main():
    grid = puldeho.Grid(w=4, r=2, k=2, n=2)
    cells = grid.air_length
    air = array.array("I", (100 + i % 7 for i in range(cells)))
    tracers = array.array("I", [3 * units for units in air] + [i * 37 % 500 for i in range(cells)])
    print("cells: %d, amounts: %d" % (cells, grid.tracers_length))
    world = puldeho.World(grid, air, tracers)
    print("load: accepted")
    make_calls(world)
    make_refused_calls(world)
    print("air:", *air)
    print("gas 0, three units to each of air:", *tracers[:cells])


main()

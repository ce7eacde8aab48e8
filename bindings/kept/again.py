"""The program of again.c in Python, kept unchanged from the first version on."""
import array
import copy
import pickle

import puldeho


def step(world, when):
    """Emits, sweeps and withdraws."""
    world.emission(0, 5, 1000)
    world.zonal(0, 0, [0, 20, 0, -10])
    world.withdrawal(0, 5, 7)
    print("%s: total %d, air" % (when, world.total(0)), *world.air)


def main():
    air, tracers = array.array("I", [100] * 6), array.array("I", range(0, 60, 10))
    world = puldeho.World((4, 1, 1, 1), air, tracers)
    saved = world.copy()
    step(world, "a step")
    step(copy.deepcopy(pickle.loads(pickle.dumps(world))), "a second")
    world = saved.copy()
    step(world, "from the kept state")
    world.tracers[1] += 300
    world = puldeho.World(world.grid, world.air, world.tracers)
    step(world, "loaded again")
    print("kept: %d" % saved.cell(0, 5))
    try:
        world.withdrawal(0, 5, 1000000)
    except puldeho.Refused as refused:
        assert refused.refusal == puldeho.Refusal.WITHDRAWAL and refused.why


main()

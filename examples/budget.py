"""A budget of two gases over three days, read from their books. examples/budget.c is the same program in C."""
import puldeho

GASES = ["carbon dioxide", "sulphur dioxide"]
CITY, STACK, FOREST, SEA = 1, 2, 3, 4               # the cells of a row


def make_day(world):
    """Emissions, the stacks, the wind, uptake by the forest, deposition on the sea."""
    world.emission(0, CITY, 90)
    world.tick(1)
    world.zonal(0, 0, [50, 50, 50, 50])
    world.withdrawal(0, FOREST, 12)
    world.withdrawal(1, SEA, world.cell(1, SEA) // 2)


def budget(world, day):
    """Prints and gives the total and the book of each gas. The call of total is refused, with 22, if some book is false."""
    found = [(world.total(gas), world.book(gas)) for gas in range(len(GASES))]
    for name, (total, book) in zip(GASES, found):
        print("day %d, %s: loaded %d + emitted %d = withdrawn %d + total %d" % (day, name, *book, total))
        assert book.loaded + book.emitted == book.withdrawn + total
    return found


world = puldeho.World(puldeho.Grid(w=4, r=1, k=1, n=2), [100] * 6, [400] * 6 + [0] * 6)
world.add_emitter(tracer=1, cell=STACK, id=101, units=64)
make_day(world)
first = budget(world, 1)
make_day(world)
make_day(world)
last = budget(world, 3)
for name, (was, then), (total, book) in zip(GASES, first, last):
    emitted, withdrawn = book.emitted - then.emitted, book.withdrawn - then.withdrawn
    print("from day 1 to day 3, %s: emitted %d - withdrawn %d = total %+d" % (name, emitted, withdrawn, total - was))

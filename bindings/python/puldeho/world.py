"""The grid, the world over lent lists, and the exception of a refused call."""
import array
import collections
import ctypes

from . import lists, shared
from .calls import BOOK_PLACE, BOUNDED, CONDITIONS, LEDGER_BLOCK, LIMITER_PLACE, OWN, REMEDIES, SCALE, SHAPES, SIGNATURES, SONAME, WHY_SIZE, WORLD
from .calls import Book, Calls, Lengths, Limiter, Refusal, StandingLimiter

# Where `why` says for the world at hand what would help, the general remedy is left out.
CURED = (Refusal.ZONAL, Refusal.MERIDIONAL, Refusal.REMAP, Refusal.LONG_FLUX, Refusal.LONG_AIR, Refusal.EMITTER_ADDED,
         Refusal.GIVEN_COUNT, Refusal.LIMITERS, Refusal.BOOKS)
# Refusals for two reasons: a fault of the ledger, or a full sum in it, is one. `why` then names a number of the ledger and says what would
# help; the general remedy speaks of it at its end, and for 5 the condition does.
TWOFOLD = (Refusal.INDEX, Refusal.EMISSION, Refusal.WITHDRAWAL)


class Grid(Lengths, collections.namedtuple("Grid", "w r k n")):
    """W columns round the globe (4 to 72), R rows from south to north (1 to 44), K layers from the top down
    (1 to 32), N tracers (1 to 8). Columns, rows, layers, tracers and cells are counted from 0."""

    __slots__ = ()

    def __new__(cls, w, r, k, n):
        return super().__new__(cls, *(lists.u32(name, value) for name, value in zip(cls._fields, (w, r, k, n))))

    def shape(self, owner, name):
        """The shape of a list of the world, or of a call; None for a number."""
        found = SHAPES.get((owner, name))
        return found and getattr(self, found)

    def _start(self, layer):
        """The number of the first cell of a layer."""
        if not 0 <= layer < self.k:
            raise IndexError("layer %d is not from 0 to %d" % (layer, self.k - 1))
        return layer * self.cells_in_layer

    def cell_number(self, layer, row, column):
        """The number of a cell over all layers: layer*C + 1 + row*W + column."""
        if not 0 <= row < self.r:
            raise IndexError("row %d is not from 0 to %d" % (row, self.r - 1))
        if not 0 <= column < self.w:
            raise IndexError("column %d is not from 0 to %d" % (column, self.w - 1))
        return self._start(layer) + 1 + row * self.w + column

    def south_cap(self, layer):
        """The number of a layer's south cap: layer*C."""
        return self._start(layer)

    def north_cap(self, layer):
        """The number of a layer's north cap: layer*C + C - 1."""
        return self._start(layer) + self.cells_in_layer - 1


class Refused(Exception):
    """A call that was refused and changed nothing: its name, the refusal and its number, and why, in words."""

    def __init__(self, call, refusal, why):
        super().__init__(call, refusal, why)
        self.call, self.refusal, self.why = call, refusal, why
        self.number = int(refusal)

    def __str__(self):
        condition, remedy = CONDITIONS[self.refusal], REMEDIES[self.refusal]
        ledger = self.refusal in TWOFOLD and "of the ledger" in self.why
        if self.refusal in TWOFOLD and not ledger:
            condition, remedy = condition.split("; ")[0], remedy.split("; if ")[0]
        text = "%s refused with %d (%s): %s." % (self.call, self.number, condition, self.why)
        return text if ledger or self.refusal in CURED else text + " What to do: %s." % remedy


class World(Calls):
    """A world over air and tracers, made by a load; a load that is refused raises Refused.

    Each list is anything with the buffer protocol that holds 32-bit unsigned numbers side by side and may be
    written, such as a numpy array of uint32, and is used without a copy: the calls change it in place. Arrays have
    one dimension or the shape grid.air_shape, grid.tracers_shape. A plain list of numbers is copied; the copy is
    world.air or world.tracers. Do not write the lists while a call runs. After you wrote into them, make a new world of
    them: calls on the old one are refused with 22 if the cells of some tracer do not sum to what its book says. The emitters
    that stand, the limiters and the books are in a list that the world has of its own, world.ledger: no emitter,
    Limiter.PRESENT and a new book after a load, copied, restored and pickled with the world, and written by the calls alone.
    A world takes no attributes of yours: a later version may give a name to something of its own.
    """

    __slots__ = ("_grid", "_kept", "_lists", "__weakref__")

    def __init__(self, grid, air, tracers):
        grid = Grid(*grid)
        own = {name: array.array("I", bytes(4 * min(getattr(grid, name + "_length"), most))) for name, most in OWN.items()}
        self._lend(grid, air=air, tracers=tracers, **own)
        self._make("load")

    def _lend(self, grid, **given):
        """Takes the grid and the lists, untested."""
        self._grid = grid
        shapes = {name: grid.shape("world", name) for name in given}
        self._kept = {name: lists.owner(name, value, "u32", shapes[name]) for name, value in given.items()}
        self._lists = {name: lists.lent(name, value, "&mut [u32]", shapes[name]) for name, value in self._kept.items()}
        self._apart(self._lists)

    def copy(self):
        """A second world with the same numbers in lists of its own; to keep a state and go back to it."""
        second = World.__new__(World)
        second._lend(self.grid, **{name: lists.copied(value) for name, value in self._kept.items()})
        return second

    def restore(self, kept):
        """Takes back the numbers of a copy, in place."""
        if kept.grid != self.grid:
            raise ValueError("the kept world has another grid: %r" % (kept.grid,))
        for name, one in self._lists.items():
            ctypes.memmove(one.address, kept._lists[name].address, 4 * one.length)

    def __copy__(self):
        return self.copy()

    def __deepcopy__(self, memo):
        return self.copy()

    def __reduce__(self):
        own = {name: self._kept[name] for name in OWN}
        return (World, (tuple(self.grid), self.air, self.tracers)) + ((own,) if own else ())

    def __setstate__(self, own):
        """The world's own lists, after a load. Of a world that a version with shorter blocks has pickled, a block's other numbers
        stay as the load left them: limiter 1, and a book that begins with this load."""
        for name, numbers in own.items():
            kept, tracers = self._kept[name], self.grid.n
            block, had = len(kept) // tracers, len(numbers) // tracers
            if had > block:
                raise ValueError("%s: a later version has pickled this world; this one is %s" % (name, SONAME))
            for tracer in range(tracers):
                kept[tracer * block : tracer * block + had] = numbers[tracer * had : (tracer + 1) * had]

    @property
    def grid(self):
        """The grid."""
        return self._grid

    @property
    def air(self):
        """The air of every cell: what was given, or the copy of a list."""
        return self._kept["air"]

    @property
    def tracers(self):
        """The amounts of every tracer: what was given, or the copy of a list."""
        return self._kept["tracers"]

    def limiter(self, tracer):
        """The limiter that a tracer has now, with its bounds; World.set_limiter sets it."""
        number, lo_low, lo_high, hi_low, hi_high = self._block(tracer)[LIMITER_PLACE : LIMITER_PLACE + 5]
        return StandingLimiter(Limiter(number), lo_high << 32 | lo_low, hi_high << 32 | hi_low)

    def book(self, tracer):
        """The book of a tracer: loaded, emitted and withdrawn, in units, the last two since the load. Reading does not test it.
        If world.total is accepted, for any tracer, the total of every tracer is loaded + emitted - withdrawn; if not, it is
        refused with 22."""
        return Book(*self._block(tracer)[BOOK_PLACE : BOOK_PLACE + 3])

    def _block(self, tracer):
        """A tracer's block of the ledger."""
        if not 0 <= tracer < self.grid.n:
            raise IndexError("tracer %d is not from 0 to %d" % (tracer, self.grid.n - 1))
        return self._kept["ledger"][tracer * LEDGER_BLOCK : (tracer + 1) * LEDGER_BLOCK]

    @staticmethod
    def _bounds(limiter, lo, hi):
        """A limiter's bounds, 0 where they are not given. With 0 and 0 for bounds a limiter that reads them has no slopes."""
        if limiter in BOUNDED and (lo is None or hi is None):
            raise TypeError("this limiter wants lo and hi: mixing ratios times %d, the scale" % SCALE)
        return 0 if lo is None else lo, 0 if hi is None else hi

    def __repr__(self):
        return "World(%r)" % (self.grid,)

    @staticmethod
    def _apart(named):
        """Fails if two lists share memory."""
        spans = sorted((one.address, one.address + 4 * one.length, name) for name, one in named.items() if one.length)
        for (_, end, name), (start, _, other) in zip(spans, spans[1:]):
            if start < end:
                raise ValueError("%s and %s share memory; give each an array of its own" % (name, other))

    def _struct(self):
        """The C struct of this world."""
        return shared.World(*self.grid, *(part for name in WORLD for part in self._lists[name].pair))

    def _make(self, call, *own):
        """Makes a call. Gives its count, or raises Refused."""
        parameters = SIGNATURES[call]
        mine = [parameter for parameter in parameters if parameter[0] not in WORLD]
        given = {
            name: lists.argument(name, value, kind, self.grid.shape(call, name)) for (name, kind), value in zip(mine, own)
        }
        named = dict(self._lists, **{name: one for name, one in given.items() if isinstance(one, lists.Lent)})
        self._apart(named)
        arguments = [part for name, _ in parameters for part in lists.parts(named.get(name, given.get(name)))]
        refusal, count = shared.outcome(call, *self.grid, *arguments)
        if refusal:
            raise Refused(call, Refusal(refusal), self._why(call, given))
        return count

    def _held(self, call, name, value):
        """An argument of a call's own as nobody can change it afterwards: a whole number, or the numbers of a list as a tuple."""
        one = lists.argument(name, value, dict(SIGNATURES[call])[name], self.grid.shape(call, name))
        return (tuple(one.block) if one.length else ()) if isinstance(one, lists.Lent) else one

    def _why(self, call, given):
        """Why the library refuses the call in this world, in words."""
        text, world = ctypes.create_string_buffer(WHY_SIZE), self._struct()
        own = [part for one in given.values() for part in lists.parts(one)]
        shared.why(call)(ctypes.byref(world), *own, text, len(text))
        return text.value.decode()

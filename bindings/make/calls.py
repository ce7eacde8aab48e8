# @MADE@
"""Refusals, lengths and calls, as the tables have them."""
import collections
import enum

__all__ = ["Book", "Limiter", "Refusal", "StandingLimiter", @EXPORTED@]

VERSION = "@VERSION@"
# The shared library of this version. Another version's functions may take other arguments.
SONAME = "@SONAME@"
ABI = "@ABI@"

@LIMITS@

class Refusal(enum.IntEnum):
    """Why a call was refused."""

@REFUSALS@

class Limiter(enum.IntEnum):
    """The limiters, by their numbers."""

@LIMITERS@

# Those that read bounds.
BOUNDED = (@BOUNDED@,)
# Where a tracer's limiter stands in its block of the ledger: its number, then lo and hi, each as its low and its high 32 bits.
LIMITER_PLACE = @LIMITERPLACE@


class StandingLimiter(collections.namedtuple("StandingLimiter", "limiter lo hi")):
    """The limiter that a tracer has, with its bounds. World.limiter gives it."""

    __slots__ = ()


# Where a tracer's book stands in its block of the ledger: what was loaded, emitted, withdrawn.
BOOK_PLACE = @BOOKPLACE@


class Book(collections.namedtuple("Book", "loaded emitted withdrawn")):
    """A tracer's book: the units that the load found in all its cells, and those emitted (ticks included) and withdrawn since then.
    World.book gives it."""

    __slots__ = ()


# Bytes that are room enough for any text that says why a call is refused.
WHY_SIZE = @WHYSIZE@

# The condition of each refusal, in words.
CONDITIONS = {
@CONDITIONS@}

# What to do about each refusal.
REMEDIES = {
@REMEDIES@}

# The world's lists, in the order of the C struct.
WORLD = (@WORLD@)
# Those among them that each world has of its own, with their lengths on the largest grid.
OWN = {@OWN@}

# The parameters of each proved function after the grid's four numbers, with their types in the library.
SIGNATURES = {
@SIGNATURES@}
# The calls whose count has 64 bits: one function gives the refusal, a second, NAME_number, the count.
WIDE = {@WIDE@}

# Which property of a grid has the shape of a list, by its owner (the world, or a call) and name.
SHAPES = {
@SHAPES@}


class Lengths:
    """How long the lists are that go with a grid, their shapes as arrays, and bounds on what a call does."""

    __slots__ = ()

    @property
    def cells_in_layer(self):
        """C, the cells of a layer: its R*W cells and the two caps."""
        return 2 + self.r * self.w
@LENGTHS@@BOUNDS@@PAIRS@

class Calls:
    """The calls, each over the world's lists."""

    __slots__ = ()
@READS@@METHODS@

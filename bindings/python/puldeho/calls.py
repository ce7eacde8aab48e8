# Made by tools/bindings from the tables of bindings/: not to be edited.
"""Refusals, lengths and calls, as the tables have them."""
import collections
import enum

__all__ = ["Book", "Limiter", "Refusal", "StandingLimiter", "CountedZonal", "SCALE", "AIR_LIMIT", "TOTAL_LIMIT", "SUM_LIMIT", "ZONAL_LIMIT", "MERIDIONAL_LIMIT", "MOST_SUBSTEPS", "TABLE_LIMIT", "TABLE_SCALE", "MOST_COLUMNS", "MOST_ROWS", "MOST_LAYERS", "MOST_TRACERS", "MOST_EMITTERS", "LEDGER_BLOCK"]

VERSION = "0.8.0"
# The shared library of this version. Another version's functions may take other arguments.
SONAME = "libpuldeho.so.0.8"
ABI = "puldeho_abi_0_8"

# The scale of ratios, mismatches and pieces, in which set_limiter takes its bounds: 262144 from version 0.6 on, and 65536 before. Builds whose scales differ may give other amounts
SCALE = 262144
# The most air of a cell; the least is 1
AIR_LIMIT = 65535
# The most units of a tracer in all cells together
TOTAL_LIMIT = 268435455
# The most units of a tracer that its book has as emitted, or as withdrawn, since the load
SUM_LIMIT = 4294967295
# The largest size of a flux of a zonal or a long zonal sweep
ZONAL_LIMIT = 1048560
# The largest size of a flux of a meridional sweep
MERIDIONAL_LIMIT = 65535
# The most substeps of a zonal sweep
MOST_SUBSTEPS = 16
# The largest a of a remap's table
TABLE_LIMIT = 2097120
# The b of a remap's table that stands for all the air of a column
TABLE_SCALE = 65536
# The largest W; the least is 4
MOST_COLUMNS = 72
# The largest R
MOST_ROWS = 44
# The largest K
MOST_LAYERS = 32
# The largest N
MOST_TRACERS = 8
# The most emitters of a tracer that stand at once
MOST_EMITTERS = 16
# How many numbers of the ledger each tracer has; tracer t's block starts at t times this number. Later versions have more
LEDGER_BLOCK = 59


class Refusal(enum.IntEnum):
    """Why a call was refused."""

    GRID_RANGE = 1
    LENGTHS = 2
    AIR_RANGE = 3
    TOTALS = 4
    INDEX = 5
    EMISSION = 6
    WITHDRAWAL = 7
    FLUXES = 8
    ZONAL = 9
    MERIDIONAL = 10
    TABLE = 11
    REMAP = 12
    LONG_FLUX = 16
    LONG_AIR = 17
    EMITTER_ADDED = 18
    EMITTER_ABSENT = 19
    GIVEN_COUNT = 20
    LIMITERS = 21
    BOOKS = 22


class Limiter(enum.IntEnum):
    """The limiters, by their numbers."""

    # van Leer's monotone limiter, which a load gives every tracer: no new highs and lows beyond rounding
    PRESENT = 1
    # keeps steeper slopes: amounts never fall below 0, but may rise above all that was near
    POSITIVE = 2
    # slopes as steep as keeps the ratio inside a cell between lo and hi; no slope in a cell whose ratio is outside. A promise for one substep, not for a run
    FIXED = 3


# Those that read bounds.
BOUNDED = (Limiter.FIXED,)
# Where a tracer's limiter stands in its block of the ledger: its number, then lo and hi, each as its low and its high 32 bits.
LIMITER_PLACE = 51


class StandingLimiter(collections.namedtuple("StandingLimiter", "limiter lo hi")):
    """The limiter that a tracer has, with its bounds. World.limiter gives it."""

    __slots__ = ()


# Where a tracer's book stands in its block of the ledger: what was loaded, emitted, withdrawn.
BOOK_PLACE = 56


class Book(collections.namedtuple("Book", "loaded emitted withdrawn")):
    """A tracer's book: the units that the load found in all its cells, and those emitted (ticks included) and withdrawn since then.
    World.book gives it."""

    __slots__ = ()


# Bytes that are room enough for any text that says why a call is refused.
WHY_SIZE = 1024

# The condition of each refusal, in words.
CONDITIONS = {
    Refusal.GRID_RANGE: "W, R, K or N is outside its range",
    Refusal.LENGTHS: "a lent length is not the grid's",
    Refusal.AIR_RANGE: "a cell's air is 0 or above 65,535",
    Refusal.TOTALS: "a tracer's total is above 268,435,455",
    Refusal.INDEX: "the tracer, cell, layer or row is absent; in add_emitter, remove_emitter, tick and units_a_tick also: in the ledger some tracer has more than 16 emitters, an emitter in an absent cell, an id twice or a false sum",
    Refusal.EMISSION: "the total would pass 268,435,455, or the tracer's emitted sum 4,294,967,295",
    Refusal.WITHDRAWAL: "the cell has less than the amount, or the tracer's withdrawn sum would pass 4,294,967,295",
    Refusal.FLUXES: "a flux's size is above 1,048,560 (zonal) or 65,535 (meridional)",
    Refusal.ZONAL: "no count from 1 to 16 serves",
    Refusal.MERIDIONAL: "the substep is not allowed",
    Refusal.TABLE: "the first pair is not (0, 0), the last is not (0, 65,536), an a is above 2,097,120, or a b is above 65,536",
    Refusal.REMAP: "in some column the edges do not rise strictly, or a new layer exceeds 65,535",
    Refusal.LONG_FLUX: "a flux's size exceeds the row's air",
    Refusal.LONG_AIR: "air afterwards leaves 1 to 65,535",
    Refusal.EMITTER_ADDED: "the tracer has 16 emitters or already has that id",
    Refusal.EMITTER_ABSENT: "the tracer has no emitter of that id",
    Refusal.GIVEN_COUNT: "the given count differs from the smallest that serves",
    Refusal.LIMITERS: "a tracer's limiter is none of 1, 2 and 3, or its lo exceeds its hi",
    Refusal.BOOKS: "a tracer's loaded + emitted - withdrawn is not the sum of its cells",
}

# What to do about each refusal.
REMEDIES = {
    Refusal.GRID_RANGE: "give W from 4 to 72, R from 1 to 44, K from 1 to 32 and N from 1 to 8, in this order",
    Refusal.LENGTHS: "take every length from the grid's length functions, and give lengths in numbers",
    Refusal.AIR_RANGE: "choose the unit of air so that every cell has 1 to 65,535, with room for the changes within a step",
    Refusal.TOTALS: "choose a larger unit for that gas, so that its total with all later emissions stays below the limit",
    Refusal.INDEX: "count from 0, and take cell numbers from the grid's functions for cells and caps; if the ledger is at fault, load the world again, which leaves no emitter standing, and add the emitters anew",
    Refusal.EMISSION: "correct an amount that is wrong, and remove an emitter whose units are wrong; else load the gas in a larger unit, with room for all emissions and ticks of the run, and add its emitters anew, with their units in the larger unit; if the emitted sum is full, read the book and load again, which begins the sums anew, then add the emitters and set the limiters anew",
    Refusal.WITHDRAWAL: "read the cell first, and withdraw at most what it has; if the withdrawn sum is full, read the book and load again, which begins the sums anew, then add the emitters and set the limiters anew",
    Refusal.FLUXES: "give fluxes in units of air for this step, and divide the step if they are still too large",
    Refusal.ZONAL: "make the sweep as two or more, each with a part of the fluxes, or as a long zonal sweep (in the library only), which gives other amounts of tracer; if a cell would end with no air or too much, make the whole step (zonal, meridional, remap) in parts, or make the meridional sweep or a remap first",
    Refusal.MERIDIONAL: "make the sweep as two or more, each with a part of the fluxes; if a cell would end with no air or too much, make the whole step (zonal, meridional, remap) in parts, or make the zonal sweeps or a remap first",
    Refusal.TABLE: "give K + 1 pairs a, b from the top down, with b in parts of 65,536, the first 0, 0 and the last 0, 65,536",
    Refusal.REMAP: "use a = 0, and choose the b so that every layer gets 1 to 65,535 units in the column with the least air and in the one with the most",
    Refusal.LONG_FLUX: "take whole turns, each the sum of the row's air, off every flux (add them if the fluxes are negative): a whole turn brings every cell back, so nothing else changes; or divide the step",
    Refusal.LONG_AIR: "give fluxes that leave every cell 1 to 65,535; if the other sweeps of the step would bring the air back, make the whole step (zonal, meridional, remap) in parts, or make the meridional sweep or a remap first",
    Refusal.EMITTER_ADDED: "remove a stack before you add it again with another cell or other units; add stacks of one cell as one emitter, with the sum of their units (to close one of them, remove the emitter and add it again with the rest); what does not fit 16 emitters give by emission",
    Refusal.EMITTER_ABSENT: "remove each stack once, from the tracer that it was added to, and add the emitters anew after a load",
    Refusal.GIVEN_COUNT: "see that layer, row and fluxes are those that were counted; then count again with count_zonal, look at the new count, and give that",
    Refusal.LIMITERS: "load the world before other calls, and again if the ledger was written by anything but calls, then add the emitters and set the limiters anew; give set_limiter 1, 2 or 3, and lo and hi as mixing ratios times 262,144, lo at most hi (with 1 and 2 both 0)",
    Refusal.BOOKS: "load the world before other calls, and again after anything but calls wrote into tracers or ledger: what the cells have then is the loaded amount, and emitters and limiters must be set anew; to go back to a kept state, bring back tracers and ledger together",
}

# The world's lists, in the order of the C struct.
WORLD = ("air", "tracers", "ledger")
# Those among them that each world has of its own, with their lengths on the largest grid.
OWN = {"ledger": 472}

# The parameters of each proved function after the grid's four numbers, with their types in the library.
SIGNATURES = {
    "load": (("air", "&[u32]"), ("tracers", "&[u32]"), ("ledger", "&mut [u32]")),
    "emission": (("air", "&[u32]"), ("tracers", "&mut [u32]"), ("ledger", "&mut [u32]"), ("tracer", "u32"), ("cell", "u32"), ("amount", "u32")),
    "withdrawal": (("air", "&[u32]"), ("tracers", "&mut [u32]"), ("ledger", "&mut [u32]"), ("tracer", "u32"), ("cell", "u32"), ("amount", "u32")),
    "zonal": (("air", "&mut [u32]"), ("tracers", "&mut [u32]"), ("ledger", "&[u32]"), ("layer", "u32"), ("row", "u32"), ("fluxes", "&[i32]")),
    "count_zonal": (("air", "&[u32]"), ("tracers", "&[u32]"), ("ledger", "&[u32]"), ("layer", "u32"), ("row", "u32"), ("fluxes", "&[i32]")),
    "zonal_with_count": (("air", "&mut [u32]"), ("tracers", "&mut [u32]"), ("ledger", "&[u32]"), ("layer", "u32"), ("row", "u32"), ("given", "u32"), ("fluxes", "&[i32]")),
    "long_zonal": (("air", "&mut [u32]"), ("tracers", "&mut [u32]"), ("ledger", "&[u32]"), ("layer", "u32"), ("row", "u32"), ("fluxes", "&[i32]")),
    "meridional": (("air", "&mut [u32]"), ("tracers", "&mut [u32]"), ("ledger", "&[u32]"), ("layer", "u32"), ("fluxes", "&[i32]")),
    "remap": (("air", "&mut [u32]"), ("tracers", "&mut [u32]"), ("ledger", "&[u32]"), ("table", "&[u32]")),
    "total": (("air", "&[u32]"), ("tracers", "&[u32]"), ("ledger", "&[u32]"), ("tracer", "u32")),
    "cell": (("air", "&[u32]"), ("tracers", "&[u32]"), ("ledger", "&[u32]"), ("tracer", "u32"), ("cell", "u32")),
    "add_emitter": (("air", "&[u32]"), ("tracers", "&[u32]"), ("ledger", "&mut [u32]"), ("tracer", "u32"), ("cell", "u32"), ("id", "u32"), ("units", "u32")),
    "remove_emitter": (("air", "&[u32]"), ("tracers", "&[u32]"), ("ledger", "&mut [u32]"), ("tracer", "u32"), ("id", "u32")),
    "tick": (("air", "&[u32]"), ("tracers", "&mut [u32]"), ("ledger", "&mut [u32]"), ("tracer", "u32")),
    "units_a_tick": (("air", "&[u32]"), ("tracers", "&[u32]"), ("ledger", "&[u32]"), ("tracer", "u32")),
    "set_limiter": (("air", "&[u32]"), ("tracers", "&[u32]"), ("ledger", "&mut [u32]"), ("tracer", "u32"), ("limiter", "u32"), ("lo", "u64"), ("hi", "u64")),
}
# The calls whose count has 64 bits: one function gives the refusal, a second, NAME_number, the count.
WIDE = {"units_a_tick"}

# Which property of a grid has the shape of a list, by its owner (the world, or a call) and name.
SHAPES = {
    ("world", "air"): "air_shape",
    ("world", "tracers"): "tracers_shape",
    ("world", "ledger"): "ledger_shape",
    ("zonal", "fluxes"): "zonal_fluxes_shape",
    ("count_zonal", "fluxes"): "count_zonal_fluxes_shape",
    ("zonal_with_count", "fluxes"): "zonal_with_count_fluxes_shape",
    ("long_zonal", "fluxes"): "long_zonal_fluxes_shape",
    ("meridional", "fluxes"): "meridional_fluxes_shape",
    ("remap", "table"): "remap_table_shape",
}


class Lengths:
    """How long the lists are that go with a grid, their shapes as arrays, and bounds on what a call does."""

    __slots__ = ()

    @property
    def cells_in_layer(self):
        """C, the cells of a layer: its R*W cells and the two caps."""
        return 2 + self.r * self.w

    @property
    def air_length(self):
        """The length of air: K*C. In it: the air of every cell; layer k starts at k*C."""
        return self.k * self.cells_in_layer

    @property
    def air_shape(self):
        """The shape of such an array of numpy; one of one dimension serves too."""
        return (self.k, self.cells_in_layer,)

    @property
    def tracers_length(self):
        """The length of tracers: N*K*C. In it: the amounts of every tracer; tracer t starts at t*K*C."""
        return self.n * self.k * self.cells_in_layer

    @property
    def tracers_shape(self):
        """The shape of such an array of numpy; one of one dimension serves too."""
        return (self.n, self.k, self.cells_in_layer,)

    @property
    def ledger_length(self):
        """The length of ledger: N*59. In it: the emitters, the limiter and the book, a block for each tracer:
        at its place 0 how many emitters stand, at 1 and 2 the sum of their units, low and high 32 bits, from
        3 on id, cell and units of each, at 51 the limiter, at 52 and 53 its lo and at 54 and 55 its hi, low
        and high 32 bits, at 56 what was loaded, at 57 what was emitted and at 58 what was withdrawn."""
        return self.n * 59

    @property
    def ledger_shape(self):
        """The shape of such an array of numpy; one of one dimension serves too."""
        return (self.n, 59,)

    @property
    def zonal_fluxes_length(self):
        """The length of fluxes of a zonal call: W. In it: flux i crosses the face from column i to column i +
        1, the last to column 0; positive eastward."""
        return self.w

    @property
    def zonal_fluxes_shape(self):
        """The shape of such an array of numpy; one of one dimension serves too."""
        return (self.w,)

    @property
    def count_zonal_fluxes_length(self):
        """The length of fluxes of a count_zonal call: W. In it: flux i crosses the face from column i to
        column i + 1, the last to column 0; positive eastward."""
        return self.w

    @property
    def count_zonal_fluxes_shape(self):
        """The shape of such an array of numpy; one of one dimension serves too."""
        return (self.w,)

    @property
    def zonal_with_count_fluxes_length(self):
        """The length of fluxes of a zonal_with_count call: W. In it: flux i crosses the face from column i to
        column i + 1, the last to column 0; positive eastward."""
        return self.w

    @property
    def zonal_with_count_fluxes_shape(self):
        """The shape of such an array of numpy; one of one dimension serves too."""
        return (self.w,)

    @property
    def long_zonal_fluxes_length(self):
        """The length of fluxes of a long_zonal call: W. In it: flux i crosses the face from column i to
        column i + 1, the last to column 0; positive eastward."""
        return self.w

    @property
    def long_zonal_fluxes_shape(self):
        """The shape of such an array of numpy; one of one dimension serves too."""
        return (self.w,)

    @property
    def meridional_fluxes_length(self):
        """The length of fluxes of a meridional call: (R + 1)*W. In it: flux g*W + i crosses between rows g -
        1 and g in column i; row -1 is the south cap, row R the north cap; positive northward."""
        return (self.r + 1) * self.w

    @property
    def meridional_fluxes_shape(self):
        """The shape of such an array of numpy; one of one dimension serves too."""
        return (self.r + 1, self.w,)

    @property
    def remap_table_length(self):
        """The length of table of a remap call: (K + 1)*2. In it: pair j is a at 2*j and b at 2*j + 1; edge j
        = a + floor(b*P/65536), P the air of the column."""
        return (self.k + 1) * 2

    @property
    def remap_table_shape(self):
        """The shape of such an array of numpy; one of one dimension serves too."""
        return (self.k + 1, 2,)

    @property
    def most_remap_steps(self):
        """The most steps of a remap call: N*C*2*K, which is 1,623,040 on the largest grid, 72 x 44 x 32 x 8.
        The remap goes down each column once for each tracer; a step passes one edge or one old layer and adds
        at most one layer's amount or piece, and 2*K steps always reach the last edge. Proved for every
        accepted remap, whatever table, air and amounts. Not counted is what is done beside these steps, such
        as tests, edges and slopes; the count comes with the steps."""
        return self.n * self.cells_in_layer * 2 * self.k


class CountedZonal(collections.namedtuple("CountedZonal", "layer row fluxes substeps")):
    """A zonal sweep that was counted and not made: its layer, row and fluxes, and the substeps that it takes.
    World.count_zonal gives it, and World.zonal_with_count takes it."""

    __slots__ = ()

    @property
    def count(self):
        """The same as substeps, in place of the method that a tuple has."""
        return self.substeps


class Calls:
    """The calls, each over the world's lists."""

    __slots__ = ()

    @property
    def ledger(self):
        """The world's own, which only calls write: the emitters, the limiter and the book, a block for each
        tracer: at its place 0 how many emitters stand, at 1 and 2 the sum of their units, low and high 32
        bits, from 3 on id, cell and units of each, at 51 the limiter, at 52 and 53 its lo and at 54 and 55
        its hi, low and high 32 bits, at 56 what was loaded, at 57 what was emitted and at 58 what was
        withdrawn."""
        return memoryview(self._kept["ledger"]).toreadonly()

    def emission(self, tracer, cell, amount):
        """Adds amount to one cell of one tracer, and to what its book has as emitted. Cells are numbered over
        all layers. Refusals, in order: 1 2 3 4 22 5 6."""
        self._make("emission", tracer, cell, amount)

    def withdrawal(self, tracer, cell, amount):
        """Takes amount from one cell of one tracer, and adds it to what its book has as withdrawn. Cells are
        numbered over all layers. Refusals, in order: 1 2 3 4 22 5 7."""
        self._make("withdrawal", tracer, cell, amount)

    def zonal(self, layer, row, fluxes):
        """Sweeps one row of one layer by W fluxes, positive eastward. Returns the number of substeps, 1 to
        16. Refusals, in order: 1 2 3 4 21 22 5 8 9."""
        return self._make("zonal", layer, row, fluxes)

    def count_zonal(self, layer, row, fluxes):
        """Counts the substeps of a zonal sweep of one row of one layer by W fluxes, positive eastward, before
        it is made, to be seen and then given to zonal_with_count. Returns a CountedZonal with layer, row,
        fluxes and substeps, the number of substeps that the sweep takes, 1 to 16. Refusals, in order: 1 2 3 4
        21 22 5 8 9."""
        layer = self._held("count_zonal", "layer", layer)
        row = self._held("count_zonal", "row", row)
        fluxes = self._held("count_zonal", "fluxes", fluxes)
        return CountedZonal(layer, row, fluxes, self._make("count_zonal", layer, row, fluxes))

    def zonal_with_count(self, counted):
        """Makes the sweep of zonal, if the given count is the one that count_zonal gives for the same layer,
        row and fluxes now; with any other count it is refused with 20. counted: what count_zonal gave.
        Returns the count in it. Refusals, in order: 1 2 3 4 21 22 5 8 9 20."""
        if not isinstance(counted, CountedZonal):
            raise TypeError("zonal_with_count takes what count_zonal gave, not a value of type %s" % type(counted).__name__)
        return self._make("zonal_with_count", counted.layer, counted.row, counted.substeps, counted.fluxes)

    def long_zonal(self, layer, row, fluxes):
        """Sweeps one row of one layer by W fluxes, positive eastward, without substeps: a face takes whole
        cells and then a part of the next. Its amounts are not those of zonal. Refusals, in order: 1 2 3 4 21
        22 5 8 16 17."""
        self._make("long_zonal", layer, row, fluxes)

    def meridional(self, layer, fluxes):
        """Sweeps one layer by W*(R + 1) fluxes, positive northward. Returns the number of substeps, 1.
        Refusals, in order: 1 2 3 4 21 22 5 8 10."""
        return self._make("meridional", layer, fluxes)

    def remap(self, table):
        """Remaps all columns to the edges of a table of K + 1 pairs a, b, lent as 2*(K + 1) numbers. Makes at
        most 2*K steps for each column and tracer, in all at most the grid's most_remap_steps. Section 6 of
        the guide writes a count out by hand. Returns exactly the number of pairs of an old and a new layer
        that share some air, summed over columns. Refusals, in order: 1 2 3 4 21 22 11 12."""
        return self._make("remap", table)

    def total(self, tracer):
        """Reads the total of one tracer. As every call but a load it tests the books of all tracers: if it is
        accepted, the total of each is what its book has as loaded + emitted - withdrawn. Returns the total of
        the tracer. Refusals, in order: 1 2 3 4 22 5."""
        return self._make("total", tracer)

    def cell(self, tracer, cell):
        """Reads one cell of one tracer. Cells are numbered over all layers. Returns the amount in the cell.
        Refusals, in order: 1 2 3 4 22 5."""
        return self._make("cell", tracer, cell)

    def add_emitter(self, tracer, cell, id, units):
        """Lets an emitter stand for one tracer: in each tick it gives so many units to the cell. Any number
        is an id, and each tracer has its own. Cells are numbered over all layers. Refusals, in order: 1 2 3 4
        22 5 18."""
        self._make("add_emitter", tracer, cell, id, units)

    def remove_emitter(self, tracer, id):
        """Removes the emitter that one tracer has under the id. The tracer's last emitter takes its place in
        the ledger. Refusals, in order: 1 2 3 4 22 5 19."""
        self._make("remove_emitter", tracer, id)

    def tick(self, tracer):
        """Adds the units of every emitter of one tracer to its cell, and to what its book has as emitted, or,
        if it is refused, of none. Refusals, in order: 1 2 3 4 22 5 6."""
        self._make("tick", tracer)

    def units_a_tick(self, tracer):
        """Reads how much a tick of one tracer emits. Returns the units that the tracer's emitters give in a
        tick. Refusals, in order: 1 2 3 4 22 5."""
        return self._make("units_a_tick", tracer)

    def set_limiter(self, tracer, limiter, *, lo=None, hi=None):
        """Chooses the limiter of one tracer: 1 the present one, 2 the positive one, 3 the fixed one between
        lo and hi, which are mixing ratios (units of gas for one of air) times the scale, 262144. The bounds
        are stored with every limiter, and only 3 reads them; give 0 and 0 with 1 and 2. Holds until the next
        set_limiter of this tracer or the next load. lo and hi are whole numbers, and 0 if they are not given;
        a limiter that reads them wants them. Refusals, in order: 1 2 3 4 22 5 21."""
        lo, hi = self._bounds(limiter, lo, hi)
        self._make("set_limiter", tracer, limiter, lo, hi)


"""Who makes the calls of a run: the proved library, or another program that reads calls as text, such as the second implementation.

An engine is given items one after the other and gives for each what came of it: a call's refusal and count, the world, or the ledger.
"""
import collections
import subprocess
import tempfile

import numpy as np
import puldeho

from .files import Bad, checksum, cause

# kind: "call", or "world" and "ledger" to see what stands. A call "resume" brings back air, tracers and ledger without a load.
Item = collections.namedtuple("Item", "kind name arguments")
Came = collections.namedtuple("Came", "refusal count why")
State = collections.namedtuple("State", "air tracers ledger")

SEE_WORLD, SEE_LEDGER = Item("world", "", ()), Item("ledger", "", ())


def call(name, *arguments):
    """A call by its name, with its own arguments; a load has air and tracers for them."""
    return Item("call", name, arguments)


class Library:
    """The proved library, through its Python package."""

    def __init__(self, grid):
        self.grid, self.world = grid, None

    @property
    def described(self):
        """Which library it is."""
        path = puldeho.shared.place()
        return "%s, sha256 %s" % (puldeho.calls.SONAME, checksum(path))

    def outcomes(self, items):
        """Each item with what came of it, made as it is asked for."""
        for item in items:
            if item.kind == "call":
                yield item, self.made(item)
            elif item.kind == "world":
                yield item, State(self.world.air.copy(), self.world.tracers.copy(), np.array(self.world.ledger))
            else:
                yield item, np.array(self.world.ledger)

    def made(self, item):
        """Makes a call."""
        try:
            return Came(0, self.counted(item.name, item.arguments) or 0, None)
        except puldeho.Refused as refused:
            return Came(refused.number, 0, str(refused))

    def counted(self, name, arguments):
        """The count of a call. In Python three calls take or give their numbers in another form."""
        if name in ("load", "resume"):
            air, tracers = (np.array(one, dtype=np.uint32) for one in arguments[:2])
            self.world = puldeho.World(self.grid, air, tracers) if name == "load" else puldeho.World.resume(self.grid, air, tracers, arguments[2])
            return 0
        if name == "count_zonal":
            return self.world.count_zonal(*arguments).substeps
        if name == "zonal_with_count":
            layer, row, given, fluxes = arguments
            return self.world.zonal_with_count(puldeho.CountedZonal(layer, row, tuple(fluxes.tolist()), given))
        if name == "set_limiter":
            return self.world.set_limiter(*arguments[:2], lo=arguments[2], hi=arguments[3])
        return getattr(self.world, name)(*arguments)


class Program:
    """A program that reads calls as text, a line each, and prints `NAME refusal count` for each, as reference/ has one."""

    def __init__(self, grid, path):
        self.grid, self.path = grid, path

    @property
    def described(self):
        """Which program it is."""
        return "the program %s, sha256 %s" % (self.path, checksum(self.path))

    def outcomes(self, items):
        """Each item with what came of it. The program is given all of them first."""
        items = list(items)
        with tempfile.TemporaryFile("w+") as script, tempfile.TemporaryFile("w+") as printed:
            script.write("grid %d %d %d %d\n" % tuple(self.grid))
            for item in items:
                script.write(self.lines(item))
            script.seek(0)
            try:
                done = subprocess.run([self.path], stdin=script, stdout=printed, stderr=subprocess.PIPE, text=True)
            except OSError as error:
                raise Bad("%s: cannot be run: %s" % (self.path, cause(error))) from None
            if done.returncode:
                raise Bad("%s: ended with status %d: %s" % (self.path, done.returncode, done.stderr.strip()))
            printed.seek(0)
            for item in items:
                yield item, self.came(item, printed)

    @staticmethod
    def lines(item):
        """The lines of an item."""
        if item.kind == "world":
            return "show\nshow_ledger\n"
        if item.kind == "ledger":
            return "show_ledger\n"
        if item.name in ("load", "resume"):
            parts = zip(("air", "tracers", "ledger"), item.arguments)
            return "".join("%s %s\n" % (name, " ".join(map(str, np.ravel(part).tolist()))) for name, part in parts) + "load\n" * (item.name == "load")
        return "%s %s\n" % (item.name, " ".join(str(number) for one in item.arguments for number in np.ravel(one).tolist()))

    def came(self, item, printed):
        """What the program printed for an item."""
        if item.kind == "world":
            return State(*(self.numbers(name, printed) for name in ("air", "tracers", "ledger")))
        if item.kind == "ledger":
            return self.numbers("ledger", printed)
        if item.name == "resume":
            return Came(0, 0, None)
        refusal, count = self.numbers(item.name, printed).tolist()
        return Came(refusal, count, "%s refused with %d (%s)." % (item.name, refusal, condition(refusal)) if refusal else None)

    def numbers(self, name, printed):
        """The numbers of the next line, which must begin with a name."""
        words = printed.readline().split()
        if words[:1] != [name]:
            raise Bad("%s: printed '%s' where a line '%s ..' is wanted" % (self.path, " ".join(words[:3]), name))
        return np.array(words[1:], dtype=np.uint64)


def condition(refusal):
    """The condition of a refusal in words, as far as this version knows it."""
    return puldeho.calls.CONDITIONS.get(refusal, "unknown here")

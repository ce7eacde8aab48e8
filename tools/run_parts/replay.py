"""A run's records made again through the library, which has the world in which each was refused and says why."""
import array
import os
import sys

import records

sys.path.insert(0, os.path.join(records.TOP, "bindings", "python"))
import puldeho


class Differs(Exception):
    """The library answers a record otherwise than the runner."""


class Replay:
    """What the records so far have set up."""

    def __init__(self):
        self.grid = self.world = None

    def out_of_place(self, kind):
        """Whether the program refuses a kind with 13 here."""
        unknown = not 1 <= kind <= len(records.NAMES)
        return unknown or (kind == 1) != (self.grid is None) or (kind > 2 and self.world is None)

    def answer(self, record, kind):
        """Refusal, count, and why in words: None for an accepted record and for the program's own refusals."""
        if self.out_of_place(kind):
            return 13, 0, None
        if record.why:
            return 14, 0, None
        try:
            return self.made(records.NAMES[kind - 1], record.parts)
        except puldeho.Refused as refused:
            return refused.number, 0, refused.why

    def made(self, name, parts):
        """The record's call. No list has a single number, since a grid has 4 columns or more."""
        own = [part[0] if len(part) == 1 else part for part in parts]
        if name == "grid":
            return self.made_grid(own)
        if name == "load":
            # After a refused load there is no world.
            self.world = None
            self.world = puldeho.World(self.grid, *(array.array("I", part) for part in own))
            return 0, 0, None
        return 0, getattr(self.world, name)(*own) or 0, None

    def made_grid(self, own):
        """The grid alone. Place 1 comes before place 2, which a load of empty lists gets on every other grid."""
        try:
            puldeho.World(own, [], [])
        except puldeho.Refused as refused:
            if refused.number == 1:
                raise
        if not records.taken(records.Grid(*own)):
            return 15, 0, None
        self.grid = own
        return 0, 0, None


def whys(run):
    """Why the library refuses each record that it refuses, by the record's index. Fails if it differs from the runner."""
    replay, found = Replay(), {}
    for index, told in enumerate(run.told):
        if told.answer is None:
            break
        kind, number, count = told.answer
        refusal, counted, why = replay.answer(told.record, kind)
        if (refusal, counted) != (number, count):
            raise Differs(
                "record %d, line %d of the text: the runner gives refusal %d and count %d, the library refusal %d and count %d"
                % (index + 1, told.line, number, count, refusal, counted)
            )
        if why is not None:
            found[index] = why
    return found

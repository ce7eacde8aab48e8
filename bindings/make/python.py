"""The Python package's made part, bindings/python/puldeho/calls.py."""
from tables import LIMITER, MADE, WHY_SIZE, WORLD, abi, bound_text, constant, filled, first_of, full_name, held, holder, in_terms, is_list, is_wide, largest, length_name, length_text, own
from tables import second_of, sets_limiter, world_lists, wrapped


def table(tables, field):
    """A dictionary from each refusal to one of its texts."""
    return "".join('    Refusal.%s: "%s",\n' % (constant(r.name), getattr(r, field)) for r in tables.refusals)


def number(name, formula, text):
    """The property that gives a number of the grid, such as the length of a list."""
    terms = in_terms(formula, "self.%s", "self.cells_in_layer").replace("*", " * ")
    return "\n    @property\n    def %s(self):\n%s\n        return %s\n" % (name, wrapped('"""%s"""' % text, 110, "        "), terms)


def shape(lent):
    """The property that gives the shape of a list as an array."""
    numbers = [in_terms(number, "self.%s", "self.cells_in_layer") for number in lent.shape]
    return '\n    @property\n    def %s_shape(self):\n        """The shape of such an array of numpy; one of one dimension serves too."""\n        return (%s,)\n' % (
        full_name(lent), ", ".join(numbers))


def signature(call):
    """The call's parameters, each with its type."""
    listed = ", ".join('("%s", "%s")' % p for p in call.parameters)
    return '    "%s": (%s%s),\n' % (call.name, listed, "," if len(call.parameters) == 1 else "")


def set_limiter(call):
    """The call that sets a limiter, as a method: the bounds by their names, 0 where the limiter does not read them."""
    bounds = [name for name, _ in LIMITER[1:]]
    others = [p.name for p in own(call)][: -len(bounds)]
    text = "%s %s are whole numbers, and 0 if they are not given; a limiter that reads them wants them. Refusals, in order: %s." % (
        call.does, " and ".join(bounds), call.refusals)
    given, names = ", ".join("%s=None" % name for name in bounds), ", ".join(bounds)
    return '\n    def %s(self, %s, *, %s):\n%s\n        %s = self._bounds(limiter, %s)\n        self._make("%s", %s, %s)\n' % (
        call.name, ", ".join(others), given, wrapped('"""%s"""' % text, 110, "        "), names, names, call.name, ", ".join(others), names)


def method(pairs, call):
    """The call as a method of the world."""
    if sets_limiter(call):
        return set_limiter(call)
    mine, first, second = [p.name for p in own(call)], first_of(pairs, call), second_of(pairs, call)
    count = "" if call.count is None else " Returns %s." % call.count.text
    made = ["%sself._make(%s)" % ("return " if call.count else "", ", ".join(['"%s"' % call.name] + mine))]
    if first is not None:
        count = " Returns a %s with %s, %s." % (first.type, " and ".join([", ".join(mine), call.count.name]), call.count.text)
        made = ['%s = self._held("%s", "%s", %s)' % (p.name, call.name, p.name, p.name) for p in own(call)]
        made += ["return %s(%s)" % (first.type, ", ".join(mine + ['self._make(%s)' % ", ".join(['"%s"' % call.name] + mine)]))]
    if second is not None:
        fields = ["counted." + holder(second, p) for p in own(call)]
        made = [
            "if not isinstance(counted, %s):" % second.type,
            '    raise TypeError("%s takes what %s gave, not a value of type %%s" %% type(counted).__name__)' % (call.name, second.first.name),
            "return self._make(%s)" % ", ".join(['"%s"' % call.name] + fields),
        ]
        mine, count = ["counted"], " counted: what %s gave. Returns the count in it." % second.first.name
    text = "%s%s Refusals, in order: %s." % (call.does, count, call.refusals)
    return '\n    def %s(%s):\n%s\n%s' % (
        call.name, ", ".join(["self"] + mine), wrapped('"""%s"""' % text, 110, "        "), "".join("        %s\n" % line for line in made))


def counted(pair):
    """The type of what a pair's first call gives and its second takes."""
    text = '"""%s. World.%s gives it, and World.%s takes it."""' % (pair.what, pair.first.name, pair.second.name)
    fields = " ".join(p.name for p in held(pair))
    return (
        '\n\nclass %s(collections.namedtuple("%s", "%s")):\n%s\n\n    __slots__ = ()\n'
        '\n    @property\n    def count(self):\n        """The same as %s, in place of the method that a tuple has."""\n        return self.%s\n'
    ) % (pair.type, pair.type, fields, wrapped(text, 110, "    "), pair.first.count.name, pair.first.count.name)


def reading(lent):
    """The property that shows a list which the world has of its own, to be read: a wrong number in it refuses calls."""
    text = "The world's own, which only calls write: %s." % lent.what
    return '\n    @property\n    def %s(self):\n%s\n        return memoryview(self._kept["%s"]).toreadonly()\n' % (
        lent.name, wrapped('"""%s"""' % text, 110, "        "), lent.name)


def calls(tables):
    """bindings/python/puldeho/calls.py."""
    major, minor, _ = tables.version.split(".")
    owned = world_lists(tables)[2]
    return filled("calls.py", {
        "MADE": MADE,
        "VERSION": tables.version,
        "ABI": abi(tables),
        "SONAME": "libpuldeho.so.%s.%s" % (major, minor),
        "LIMITS": "".join("# %s\n%s = %d\n" % (l.what[0].upper() + l.what[1:], l.name, l.number) for l in tables.limits),
        "EXPORTED": ", ".join('"%s"' % name for name in [pair.type for pair in tables.pairs] + [l.name for l in tables.limits]),
        "LIMITERS": "".join("    # %s\n    %s = %d\n" % (l.what, constant(l.name), l.number) for l in tables.limiters),
        "BOUNDED": ", ".join("Limiter.%s" % constant(l.name) for l in tables.limiters if l.bounds),
        "LIMITERPLACE": str(tables.limiter_place),
        "BOOKPLACE": str(tables.book_place),
        "REFUSALS": "".join("    %s = %d\n" % (constant(r.name), r.number) for r in tables.refusals),
        "WHYSIZE": str(WHY_SIZE),
        "CONDITIONS": table(tables, "condition"),
        "REMEDIES": table(tables, "remedy"),
        "WORLD": ", ".join('"%s"' % name for name in WORLD),
        "OWN": ", ".join('"%s": %d' % (l.name, largest(l, tables)) for l in owned),
        "READS": "".join(map(reading, owned)),
        "SIGNATURES": "".join(map(signature, tables.calls)),
        "WIDE": ", ".join('"%s"' % call.name for call in tables.calls if is_wide(call)),
        "LENGTHS": "".join(number(length_name(l), l.length, length_text(l)) + shape(l) for l in tables.lists),
        "BOUNDS": "".join(number(b.name, b.most, bound_text(b, tables)) for b in tables.bounds),
        "SHAPES": "".join('    ("%s", "%s"): "%s_shape",\n' % (l.owner, l.name, full_name(l)) for l in tables.lists),
        "PAIRS": "".join(map(counted, tables.pairs)),
        "METHODS": "".join(method(tables.pairs, call) for call in tables.calls if call.name != "load"),
    })

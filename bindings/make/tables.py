"""The tables of bindings/: calls, pairs, lists, bounds, limits, limiters, refusals, stacks, version. Each is read, and held to the crates that it speaks of."""
import re
import sys
import textwrap
from collections import namedtuple

Parameter = namedtuple("Parameter", "name type")
Count = namedtuple("Count", "name type text")
Export = namedtuple("Export", "name returns")
Call = namedtuple("Call", "name parameters world refusals count does")
Lent = namedtuple("Lent", "owner kind name shape length what")
Bound = namedtuple("Bound", "name counted call most what")
Refusal = namedtuple("Refusal", "number name condition cause remedy")
Limit = namedtuple("Limit", "name number what")
Pair = namedtuple("Pair", "first second given type what")
Limiter = namedtuple("Limiter", "number name bounds what")
Tables = namedtuple("Tables", "calls pairs lists bounds limits limiters limiter_place book_place refusals programs stack version")

GRID = ("w", "r", "k", "n")
# The limit of bindings/limits.txt that is the largest of each of the grid's numbers.
MOST = {"w": "MOST_COLUMNS", "r": "MOST_ROWS", "k": "MOST_LAYERS", "n": "MOST_TRACERS"}
TYPES = ("u32", "u64", "&[u32]", "&mut [u32]", "&[i32]")
# The parameters that together are a limiter.
LIMITER = (("limiter", "u32"), ("lo", "u64"), ("hi", "u64"))
MADE = "Made by tools/bindings from the tables of bindings/: not to be edited."
RAW = "puldeho_raw_"
# Bytes that are room enough for any text that says why a call is refused.
WHY_SIZE = 1024


def rows(path, fields):
    """The lines of a table, comments left out, each as its fields."""
    for line in open(path, encoding="utf-8"):
        if line.strip() and not line.startswith("#"):
            row = line.rstrip("\n").split(" | ")
            if len(row) != fields:
                sys.exit("%s: not %d fields: %s" % (path, fields, line.rstrip()))
            yield row


# The world's lists, and those among them that a user need not know of: each world has its own, which begins as zeros.
WORLD = tuple(name for whose, name, *_ in rows("bindings/lists.txt", 4) if whose in ("world", "world own"))
OWN = tuple(name for whose, name, *_ in rows("bindings/lists.txt", 4) if whose == "world own")


def parameters(text):
    """The parameters of a list such as `air: &[u32], tracer: u32`."""
    found = [Parameter(*part.strip().split(": ")) for part in text.split(",") if part.strip()]
    for parameter in found:
        if parameter.type not in TYPES:
            sys.exit("%s: no such type of a parameter: %s" % parameter)
    return found


def is_list(parameter):
    return parameter.type.startswith("&")


def is_written(parameter):
    return parameter.type.startswith("&mut")


def own(call):
    """The call's parameters without the world's lists."""
    return [p for p in call.parameters if p.name not in WORLD]


def read_count(text):
    """The count of a call such as `units: the total`, or `units (u64): ..` for one of 64 bits; None for -."""
    if text == "-":
        return None
    name, words = text.split(": ", 1)
    wide = name.endswith(" (u64)")
    return Count(name[: -len(" (u64)")] if wide else name, "u64" if wide else "u32", words)


def is_wide(call):
    """Whether the call's count has 64 bits, so that its refusal and its count are two exports."""
    return call.count is not None and call.count.type == "u64"


def exports(call):
    """The exported functions of a call, with what each returns."""
    name = RAW + call.name
    return [Export(name, "u32"), Export(name + "_number", "u64")] if is_wide(call) else [Export(name, "u64")]


def read_calls():
    """The table of the calls."""
    calls = []
    for name, listed, world, refusals, count, does in rows("bindings/calls.txt", 6):
        call = Call(name, parameters(listed), world, refusals, read_count(count), does)
        mine = own(call)
        if any(is_written(p) for p in mine) or any(is_list(p) for p in mine[:-1]):
            sys.exit("bindings/calls.txt: %s: only the world's lists are written, and a list of its own stands last" % name)
        if world not in ("read", "changed") or (world == "read" and any(map(is_written, call.parameters))):
            sys.exit("bindings/calls.txt: %s: the world is read or changed, and changed if a list is written" % name)
        calls.append(call)
    return calls


def read_pairs(calls):
    """The table of the pairs: the second call takes what the first takes, and the first's count as one number more."""
    pairs, known = [], {call.name: call for call in calls}
    for first, second, given, name, what in rows("bindings/pairs.txt", 5):
        if first not in known or second not in known:
            sys.exit("bindings/pairs.txt: %s, %s: no such call" % (first, second))
        one, two = known[first], known[second]
        if own(one) != [p for p in own(two) if p.name != given] or Parameter(given, "u32") not in own(two):
            sys.exit("bindings/pairs.txt: %s does not take what %s takes, and %s" % (second, first, given))
        if one.world != "read" or one.count is None or is_wide(one) or not re.fullmatch("([A-Z][a-z]+)+", name):
            sys.exit("bindings/pairs.txt: %s: the first call reads and has a count of 32 bits, and %s is a type's name" % (first, name))
        pairs.append(Pair(one, two, given, name, what))
    return pairs


# Words that are no names in C, C++, Rust, Python or Fortran, and names that the made functions have for themselves.
RESERVED = set("""and as auto await bool box break case char class const continue def default del delete do double else enum extern
    float fn for friend from global goto if impl import in inline int is lambda let long loop match mod move mut new none not or
    pass pub raise ref register return self short signed sizeof static struct super switch template this throw trait true try type
    typedef union unsigned use using virtual void volatile where while with yield""".split())
TAKEN = set("w r k n c grid world refusal returned text size words words_size outcome rest loaded lent count".split())


def check_names(calls):
    """Fails at a name that some language has not, or that stands for two things in one function."""
    for call in calls:
        names = [p.name for p in call.parameters] + [p.name + "_length" for p in call.parameters if is_list(p)]
        names += [call.count.name] if call.count else []
        if len(set(names)) < len(names) or TAKEN & set(names) or RESERVED & {call.name, *names} or call.name in WORLD:
            sys.exit("bindings/calls.txt: %s: a name is reserved, is taken, or stands twice" % call.name)


def read_lists(calls, limits):
    """The table of the lists: the world's, and each call's own. A limit's name in a shape stands for its number."""
    lists, numbered = [], {limit.name: str(limit.number) for limit in limits}
    for whose, name, shape, what in rows("bindings/lists.txt", 4):
        owner, _, kind = whose.partition(" ")
        numbers = [numbered.get(number, number) for number in shape.split(", ")]
        length = "*".join("(%s)" % number if " " in number and len(numbers) > 1 else number for number in numbers)
        lists.append(Lent(owner, kind, name, numbers, length, what))
    wanted = [("world", name) for name in WORLD]
    wanted += [(call.name, p.name) for call in calls for p in own(call) if is_list(p)]
    if [(lent.owner, lent.name) for lent in lists] != wanted:
        sys.exit("bindings/lists.txt: not the lists of bindings/calls.txt, in their order")
    return lists


def world_lists(tables):
    """The world's lists: all, those that a user gives, and the world's own."""
    lists = [lent for lent in tables.lists if lent.owner == "world"]
    return lists, [lent for lent in lists if lent.kind != "own"], [lent for lent in lists if lent.kind == "own"]


def full_name(lent):
    """A list's name with its call: air, zonal_fluxes."""
    return lent.name if lent.owner == "world" else "%s_%s" % (lent.owner, lent.name)


def length_name(lent):
    """The name of a list's length: air_length, zonal_fluxes_length."""
    return full_name(lent) + "_length"


def proved_number(theorem):
    """The number that a theorem of the model, named as FILE NAME, ends with."""
    path, _, name = theorem.partition(" ")
    text = open("crates/model/proofs/%s.antt" % path, encoding="utf-8").read()
    found = re.search(r"^pub %s : [^\n]* ≡ (\d+)$" % re.escape(name), text, re.MULTILINE)
    return int(found.group(1)) if found else None


def read_bounds(calls, lists, limits):
    """The table of the bounds. Each must fit the 32-bit numbers of Fortran on every grid, and be the model's number on the largest."""
    bounds, known = [], {call.name for call in calls}
    taken = known | {length_name(lent) for lent in lists}
    for call, counted, most, theorem, what in rows("bindings/bounds.txt", 5):
        name = "most_%s_%s" % (call, counted)
        if call not in known or not re.fullmatch("[a-z]+(_[a-z]+)*", counted) or name in taken:
            sys.exit("bindings/bounds.txt: %s: no such call, or the name is no word, is taken, or stands twice" % name)
        if not re.fullmatch(r"([wrknc]|[1-9]\d*)(\*([wrknc]|[1-9]\d*))*", most) or on_largest(most, limits) >= 2**31:
            sys.exit("bindings/bounds.txt: %s: no product of w, r, k, n, c and numbers, or too large: %s" % (name, most))
        if proved_number(theorem) != on_largest(most, limits):
            sys.exit("bindings/bounds.txt: %s: %s is about another number" % (name, theorem))
        taken.add(name)
        bounds.append(Bound(name, counted, call, most, what))
    return bounds


def read_refusals():
    """The table of the refusals, those of the calls apart from those of the runner program."""
    found = [Refusal(int(number), *rest) for number, *rest in rows("bindings/refusals.txt", 5)]
    return [r for r in found if r.name != "-"], [r for r in found if r.name == "-"]


def unit_numbers():
    """The numbers that crates/units has by name."""
    source = open("crates/units/src/lib.rt", encoding="utf-8").read()
    return dict(re.findall(r"^pub const (\w+): \w+ = (\d+);", source, re.M))


def read_limits():
    """The table of the limits, with their numbers from crates/units."""
    numbers = unit_numbers()
    for name, what in rows("bindings/limits.txt", 2):
        if name not in numbers:
            sys.exit("bindings/limits.txt: %s is no constant of crates/units/src/lib.rt" % name)
        yield Limit(name, int(numbers[name]), what)


def read_limiters():
    """The table of the limiters, numbered from 1 on, as crates/units has their numbers."""
    numbers, limiters = unit_numbers(), []
    for number, name, bounds, what in rows("bindings/limiters.txt", 4):
        limiter = Limiter(int(number), name, [] if bounds == "-" else bounds.split(", "), what)
        if limiter.number != len(limiters) + 1 or not set(limiter.bounds) <= {bound for bound, _ in LIMITER[1:]}:
            sys.exit("bindings/limiters.txt: %s: the numbers are 1, 2 and so on, and the bounds lo and hi" % name)
        if numbers.get(name.upper() + "_LIMITER") != number:
            sys.exit("bindings/limiters.txt: %s has another number than in crates/units/src/lib.rt" % name)
        limiters.append(limiter)
    return limiters


def read_stack(calls):
    """The deepest stack of each call, as tools/stack wrote it; programs are left out."""
    stack = {}
    for line in open("bindings/stack.txt", encoding="utf-8"):
        name, number = line.split()[:2]
        if name.startswith(RAW):
            stack[name] = int(number)
    if set(stack) != {export.name for call in calls for export in exports(call)}:
        sys.exit("bindings/stack.txt: not the calls of bindings/calls.txt; tools/stack --write writes it")
    return stack


def check_boundary(calls):
    """Fails unless the table and the exported functions of crates/boundary have the same names and parameters."""
    source = open("crates/boundary/src/lib.rt", encoding="utf-8").read()
    shape = r'#\[unsafe\(no_mangle\)\]\s*pub extern "C" fn (puldeho_raw_\w+)\((.*?)\) -> (u32|u64)\n'
    exported = {name: (parameters(text), returns) for name, text, returns in re.findall(shape, source, re.S)}
    if len(exported) != source.count("#[unsafe(no_mangle)]"):
        sys.exit("crates/boundary/src/lib.rt: an exported function does not have the form that tools/bindings reads")
    grid = [Parameter(letter, "u32") for letter in GRID]
    table = {export.name: (grid + call.parameters, export.returns) for call in calls for export in exports(call)}
    for name in sorted(exported.keys() | table.keys()):
        if exported.get(name) != table.get(name):
            sys.exit("bindings/calls.txt: %s is not as in crates/boundary/src/lib.rt" % name)


def check_refusals(calls, refusals):
    """Fails unless the refusals are those of crates/units, and each call names only such."""
    source = open("crates/units/src/lib.rt", encoding="utf-8").read()
    enum = re.search(r"^pub enum Refusal \{\n(.*?)^\}", source, re.M | re.S)
    numbered = [(int(number), name) for name, number in re.findall(r"^    (\w+) = (\d+),$", enum.group(1) if enum else "", re.M)]
    if numbered != [(r.number, r.name) for r in refusals]:
        sys.exit("bindings/refusals.txt: not as in crates/units/src/lib.rt")
    for call in calls:
        if not {int(number) for number in call.refusals.split()} <= {r.number for r in refusals}:
            sys.exit("bindings/calls.txt: %s names an absent refusal" % call.name)


def read_tables():
    """All tables, each held to what it speaks of."""
    calls = read_calls()
    refusals, programs = read_refusals()
    check_names(calls)
    check_boundary(calls)
    check_refusals(calls, refusals)
    version = open("bindings/version.txt", encoding="utf-8").read().strip()
    limits = list(read_limits())
    lists = read_lists(calls, limits)
    bounds, places = read_bounds(calls, lists, limits), [int(unit_numbers()[name]) for name in ("LIMITER_PLACE", "BOOK_PLACE")]
    return Tables(
        calls, read_pairs(calls), lists, bounds, limits, read_limiters(), *places, refusals, programs, read_stack(calls), version
    )


# What the makers of the languages share.


def first_of(pairs, call):
    """The pair whose first call this is, or None."""
    return next((pair for pair in pairs if pair.first.name == call.name), None)


def second_of(pairs, call):
    """The pair whose second call this is, or None."""
    return next((pair for pair in pairs if pair.second.name == call.name), None)


def held(pair):
    """What a value of the pair's type holds: the first call's own arguments, then its count."""
    return own(pair.first) + [Parameter(pair.first.count.name, "u32")]


def holder(pair, parameter):
    """The field of such a value that is a parameter of the second call."""
    return pair.first.count.name if parameter.name == pair.given else parameter.name


def sets_limiter(call):
    """Whether the call takes a limiter, in its last parameters."""
    return tuple(map(tuple, own(call)[-len(LIMITER) :])) == LIMITER


def abi(tables):
    """The function whose name has the version, in which a program and its library must agree."""
    return "puldeho_abi_%s_%s" % tuple(tables.version.split(".")[:2])


def constant(name):
    """AirRange as AIR_RANGE."""
    return re.sub(r"(?<=[a-z])(?=[A-Z])", "_", name).upper()


def described(call):
    """What a call does, for its comment: the work, what it writes, refusals, count."""
    written = [p.name for p in call.parameters if is_written(p)]
    count = "" if call.count is None else " %s: %s." % (call.count.name, call.count.text)
    return "%s Writes %s. Refusals, in order: %s.%s" % (call.does, " and ".join(written) or "nothing", call.refusals, count)


def in_terms(length, letter, cells):
    """A length with the grid's letters as a language writes them, such as grid.w, and `cells` for c."""
    written = lambda found: cells if found.group(0) == "c" else letter % found.group(0)
    return re.sub(r"\b[wrknc]\b", written, length)


def largest_grid(limits):
    """The grid's numbers on the largest grid."""
    numbers = {limit.name: limit.number for limit in limits}
    return {letter: numbers[MOST[letter]] for letter in GRID}


def on_largest(formula, limits):
    """A formula in the grid's letters, on the largest grid."""
    most = largest_grid(limits)
    return eval(formula, {}, dict(most, c=2 + most["r"] * most["w"]))


def largest(lent, tables):
    """A list's length on the largest grid."""
    return on_largest(lent.length, tables.limits)


def length_text(lent):
    """A list's length and what stands in it, in words."""
    whose = "" if lent.owner == "world" else " of a %s call" % lent.owner
    return "The length of %s%s: %s. In it: %s." % (lent.name, whose, lent.length.upper(), lent.what)


def bound_text(bound, tables):
    """A bound, on the largest grid too, and what is counted, in words."""
    grid = " x ".join(map(str, largest_grid(tables.limits).values()))
    most = bound.most.upper(), format(on_largest(bound.most, tables.limits), ",")
    return "The most %s of a %s call: %s, which is %s on the largest grid, %s. %s" % (bound.counted, bound.call, *most, grid, bound.what)


def wrapped(text, width, before):
    """The text in lines of some width, each with something before it."""
    return textwrap.fill(text, width, initial_indent=before, subsequent_indent=before, break_on_hyphens=False)


def filled(template, parts):
    """The text of a template with a part for each of its marks."""
    text = open("bindings/make/" + template, encoding="utf-8").read()
    for mark, part in parts.items():
        if text.count("@%s@" % mark) == 0:
            sys.exit("bindings/make/%s: no mark @%s@" % (template, mark))
        text = text.replace("@%s@" % mark, part)
    left = re.search(r"@[A-Z]+@", text)
    if left:
        sys.exit("bindings/make/%s: %s gets nothing" % (template, left.group(0)))
    return text

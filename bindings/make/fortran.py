"""The Fortran module, bindings/fortran/puldeho.f90."""
import sys
import textwrap

from tables import GRID, MADE, RAW, WHY_SIZE, WORLD, abi, bound_text, constant, exports, filled, in_terms, is_list, is_wide, is_written, largest
from tables import length_name, length_text, own, world_lists, wrapped

TYPES = {"u32": "integer(c_int32_t)", "u64": "integer(c_int64_t)"}
WIDTH = 120  # of a comment


def listed(names, indent):
    """Names in a bracket, continued over lines of at most 120 characters."""
    return (" &\n" + indent).join(textwrap.wrap(", ".join(names), 110 - len(indent), break_long_words=False))


def quoted(text, indent):
    """A text as a character expression, continued over lines."""
    parts = textwrap.wrap(text, 90, drop_whitespace=False, break_on_hyphens=False)
    return (" // &\n" + indent).join('"%s"' % part for part in parts)


def arguments(parameters):
    """Parameters of a function of C: their names, a list with its length, and their declarations."""
    names, declared = [], ""
    for p in parameters:
        names += [p.name, p.name + "_length"] if is_list(p) else [p.name]
        if is_list(p):
            declared += "      integer(c_int32_t), intent(%s) :: %s(*)\n" % ("inout" if is_written(p) else "in", p.name)
            declared += "      integer(c_size_t), value :: %s_length\n" % p.name
        else:
            declared += "      %s, value :: %s\n" % (TYPES[p.type], p.name)
    return names, declared


def raw(call):
    """The interfaces of the proved functions."""
    names, declared = arguments(call.parameters)
    one = (
        "    function {0}( &\n        {1}) &\n        bind(c) result(returned)\n"
        "      import :: c_int32_t, c_int64_t, c_size_t\n      integer(c_int32_t), value :: {2}\n{3}"
        "      {4} :: returned\n    end function {0}\n"
    )
    given = listed(list(GRID) + names, "        "), ", ".join(GRID), declared
    return "\n".join(one.format(export.name, *given, TYPES[export.returns]) for export in exports(call))


def intents(parameters):
    """The declarations of a call's own parameters, which it reads."""
    return "".join(
        "    %s, intent(in) :: %s%s\n" % (TYPES["u32" if is_list(p) else p.type], p.name, "(:)" if is_list(p) else "") for p in parameters
    )


def why_interface(call):
    """The interface of the C function that says why a call is refused."""
    names, declared = arguments(own(call))
    return (
        "    function c_why_{0}( &\n        {1}) &\n        bind(c, name=\"puldeho_why_{0}\") result(refusal)\n"
        "      import :: c_char, c_int, c_int32_t, c_int64_t, c_size_t, c_world\n      type(c_world), intent(in) :: world\n{2}"
        "      character(kind=c_char), intent(out) :: words(*)\n      integer(c_size_t), value :: words_size\n"
        "      integer(c_int) :: refusal\n    end function c_why_{0}\n"
    ).format(call.name, listed(["world"] + names + ["words", "words_size"], "        "), declared)


def why_method(call):
    """The procedure that says why a call is refused."""
    mine = own(call)
    names = ["world"] + [p.name for p in mine] + ["text"]
    arguments = ["world_of(world)"]
    for p in mine:
        arguments += [p.name, "size(%s, kind=c_size_t)" % p.name] if is_list(p) else [p.name]
    return (
        "\n  ! Why the call {0} is refused in this world, in words; ask after the refusal, before the world changes.\n"
        "  subroutine world_why_{0}({1})\n    class(puldeho_world), intent(in), target :: world\n{2}"
        "    character(len=:), allocatable, intent(out) :: text\n"
        "    character(kind=c_char) :: words(why_size)\n    integer(c_int) :: refusal\n\n"
        "    refusal = c_why_{0}( &\n        {3})\n    text = text_of(words)\n  end subroutine world_why_{0}\n"
    ).format(call.name, ", ".join(names), intents(mine), listed(arguments + ["words", "int(why_size, c_size_t)"], "        "))


def given(call, world):
    """The arguments of the proved function, those of the world from a world of some name."""
    found = ["%s%%grid%%%s" % (world, letter) for letter in GRID]
    for p in call.parameters:
        name = "%s%%%s" % (world, p.name) if p.name in WORLD else p.name
        found += [name, "size(%s, kind=c_size_t)" % name] if is_list(p) else [name]
    return listed(found, "        ")


def made(call):
    """The lines that make a call on a loaded world and set refusal and count."""
    lent = given(call, "world")
    present = "    if (present({0})) {0} = ".format(call.count.name) if call.count else ""
    if is_wide(call):
        refusal, number = exports(call)
        return "    refusal = {0}( &\n        {1})\n{2}{3}( &\n        {1})\n".format(refusal.name, lent, present, number.name)
    lines = "    returned = %s%s( &\n        %s)\n    refusal = refusal_of(returned)\n" % (RAW, call.name, lent)
    return lines + (present + "count_of(returned)\n" if call.count else "")


def method(call):
    """The call as a procedure of the world."""
    mine = own(call)
    names = ["world"] + [p.name for p in mine] + ["refusal"] + ([call.count.name] if call.count else [])
    count = "  ! %s: %s.\n" % (call.count.name, call.count.text) if call.count else ""
    declared = intents(mine)
    if call.count:
        declared += "    %s, intent(out), optional :: %s\n" % (TYPES[call.count.type], call.count.name)
    if not is_wide(call):
        declared += "    integer(c_int64_t) :: returned\n"
    intent = "in" if call.world == "read" else "inout"
    comment = wrapped("%s Refusals, in order: %s." % (call.does, call.refusals), 110, "  ! ")
    return (
        "\n{0}\n{1}  subroutine world_{2}({3})\n    class(puldeho_world), intent({4}) :: world\n"
        "    integer(c_int32_t), intent(out) :: refusal\n{5}\n"
        "    refusal = puldeho_refusal_grid_range\n{6}    if (.not. has_lists(world)) return\n{7}  end subroutine world_{2}\n"
    ).format(
        comment, count, call.name, ", ".join(names), intent, declared,
        "    if (present({0})) {0} = 0\n".format(call.count.name) if call.count else "", made(call),
    )


def field(lent):
    """A list as a component of the world."""
    text = "%s: %s numbers, the first has the index 0" % (lent.what, lent.length.upper())
    return "%s\n    integer(c_int32_t), allocatable :: %s(:)\n" % (wrapped(text, 110, "    ! "), lent.name)


def number(name, formula, text, result):
    """The function that gives a number of the grid, such as the length of a list."""
    terms = in_terms(formula, "grid%%%s", "puldeho_cells_in_layer(grid)")
    return (
        "\n{0}\n  pure function puldeho_{1}(grid) result({3})\n    type(puldeho_grid), intent(in) :: grid\n"
        "    integer(c_int32_t) :: {3}\n\n    {3} = {2}\n  end function puldeho_{1}\n"
    ).format(wrapped(text, 110, "  ! "), name, terms, result)


def limit(one):
    """A limit by name; one that 32 bits with a sign do not hold has 64."""
    kind, ending = ("c_int32_t", "") if one.number < 2**31 else ("c_int64_t", "_c_int64_t")
    return "%s\n  integer(%s), parameter, public :: puldeho_%s = %d%s\n" % (wrapped(one.what, 110, "  ! "), kind, one.name.lower(), one.number, ending)


def texts(tables, field):
    """The cases that give a text for each refusal."""
    return "".join(
        "    case (puldeho_refusal_%s)\n      text = %s\n" % (constant(r.name).lower(), quoted(getattr(r, field), "          "))
        for r in tables.refusals
    )


def narrow(text):
    """The text, if each of its comments is within the width; those of the template are wrapped by hand."""
    for line in text.splitlines():
        if line.lstrip().startswith("!") and len(line) > WIDTH:
            sys.exit("bindings/fortran/puldeho.f90: a comment of more than %d characters: %s" % (WIDTH, line.strip()))
    return text


def module(tables):
    """bindings/fortran/puldeho.f90."""
    lists, asked, owned = world_lists(tables)
    load = next(call for call in tables.calls if call.name == "load")
    later = [call for call in tables.calls if call.name != "load"]
    return narrow(filled("puldeho.f90", {
        "MADE": MADE,
        "VERSION": tables.version,
        "ABI": abi(tables),
        "LIMITS": "".join(map(limit, tables.limits)),
        "NAMES": "".join("  public :: puldeho_%s\n" % name for name in [length_name(l) for l in tables.lists] + [b.name for b in tables.bounds]),
        "LIMITERS": "".join(
            "%s\n  integer(c_int32_t), parameter, public :: puldeho_limiter_%s = %d\n" % (
                wrapped(l.what, 110, "  ! "), constant(l.name).lower(), l.number)
            for l in tables.limiters
        ),
        "LIMITERPLACE": str(tables.limiter_place),
        "BOOKPLACE": str(tables.book_place),
        "REFUSALS": "".join(
            "%s\n  integer(c_int32_t), parameter, public :: puldeho_refusal_%s = %d\n" % (
                wrapped(r.condition, 110, "  ! "), constant(r.name).lower(), r.number)
            for r in tables.refusals
        ),
        "FIELDS": "".join(map(field, lists)),
        "METHODS": "".join("    procedure :: %s => world_%s\n" % (call.name, call.name) for call in tables.calls)
        + "".join("    procedure :: why_%s => world_why_%s\n" % (call.name, call.name) for call in later),
        "CFIELDS": "".join("    type(c_ptr) :: {0} = c_null_ptr\n    integer(c_size_t) :: {0}_length = 0\n".format(l.name) for l in lists)
        + "".join("    integer(c_int32_t) :: own_%s(%d) = 0\n" % (l.name, largest(l, tables)) for l in owned),
        "LENT": "".join(
            "    lent%{0} = c_loc(world%{0})\n    lent%{0}_length = size(world%{0}, kind=c_size_t)\n".format(l.name) for l in lists
        ),
        "WHYINTERFACES": "\n".join(map(why_interface, tables.calls)),
        "WHYS": "".join(map(why_method, later)),
        "RAWS": "\n".join(map(raw, tables.calls)),
        "LOADED": ", ".join(l.name for l in asked),
        "GIVEN": given(load, "loaded"),
        "DECLARED": "".join("    integer(c_int32_t), intent(in) :: %s(:)\n" % l.name for l in asked),
        "COPIED": "".join("    allocate (world%{0}(0:size({0}) - 1), source={0})\n".format(l.name) for l in asked)
        + "".join(
            "    allocate (world%%%s(0:min(puldeho_%s(grid), %d) - 1), source=0)\n" % (l.name, length_name(l), largest(l, tables)) for l in owned
        ),
        "KEPT": "".join("    call move_alloc(loaded%{0}, world%{0})\n".format(l.name) for l in lists),
        "ALLOCATED": " .and. ".join("allocated(world%%%s)" % l.name for l in lists),
        "WHYSIZE": str(WHY_SIZE),
        "CALLS": "".join(map(method, later)),
        "LENGTHS": "".join(number(length_name(l), l.length, length_text(l), "length") for l in tables.lists),
        "BOUNDS": "".join(number(b.name, b.most, bound_text(b, tables), "most") for b in tables.bounds),
        "CONDITIONS": texts(tables, "condition"),
        "REMEDIES": texts(tables, "remedy"),
    }))

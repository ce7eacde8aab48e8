"""The C header, bindings/puldeho.h, and the calls of the C reader of scripts, bindings/c/calls.c."""
from tables import GRID, MADE, OWN, RAW, WHY_SIZE, WORLD, bound_text, constant, described, exports, filled, in_terms, is_list, is_wide, is_written
from tables import largest, length_name, length_text, own, world_lists, wrapped

TYPES = {"u32": "uint32_t ", "u64": "uint64_t ", "&[u32]": "const uint32_t *", "&mut [u32]": "uint32_t *", "&[i32]": "const int32_t *"}
TAKEN = {"u32": "take_u32", "u64": "take_u64", "&[u32]": "take_u32s", "&[i32]": "take_i32s"}


def comment(text, indent=""):
    """A text as a comment of some lines, the last with the comment's end."""
    lines = wrapped("/* %s\0*/" % text, 96, indent + " * ").replace("\0", " ")
    return indent + lines[len(indent + " * ") :]


def declared(parameter):
    """A parameter as C declares it, a list with its length."""
    text = TYPES[parameter.type] + parameter.name
    return text + ", size_t %s_length" % parameter.name if is_list(parameter) else text


def access(parameters, first):
    """What a compiler may hold the lists to: how each is used, with the places of pointer and length among the arguments."""
    found, place = "", first
    for p in parameters:
        if is_list(p):
            found += "PULDEHO_LIST(%s, %d, %d) " % ("read_write" if is_written(p) else "read_only", place, place + 1)
        place += 2 if is_list(p) else 1
    return found


def world_type(call):
    return "struct puldeho_world *world" if call.world == "changed" else "const struct puldeho_world *world"


def raw(call):
    """The declarations of the proved functions."""
    first = ", ".join("uint32_t " + letter for letter in GRID)
    listed = ",\n    ".join([first] + [declared(p) for p in call.parameters])
    lists = access(call.parameters, len(GRID) + 1).rstrip()
    one = "PULDEHO_MUST_USE %s\n%s%s(\n    %s);\n"
    return "\n".join(one % (lists, TYPES[export.returns], export.name, listed) for export in exports(call))


def given(call):
    """The arguments of the proved function, from the world and the call's own."""
    lines = [", ".join("world->grid." + letter for letter in GRID)]
    for p in call.parameters:
        if p.name in OWN:
            lines.append("world->{0} != NULL ? world->{0} : world->own_{0}, puldeho_lent_{0}_length(world)".format(p.name))
        elif p.name in WORLD:
            lines.append("world->{0}, world->{0}_length".format(p.name))
        else:
            lines.append("{0}, {0}_length".format(p.name) if is_list(p) else p.name)
    return ",\n        ".join(lines)


def head(call):
    """The call that users make, without its body."""
    parameters = [world_type(call)] + [declared(p) for p in own(call)]
    if call.count:
        parameters.append("%s*%s" % (TYPES[call.count.type], call.count.name))
    return "static inline enum puldeho_refusal puldeho_%s(\n    %s)" % (call.name, ",\n    ".join(parameters))


def prototype(call):
    """The same with its comment and what a compiler may warn of."""
    lists = ["%s has puldeho_%s_%s_length(grid) numbers." % (p.name, call.name, p.name) for p in own(call) if is_list(p)]
    comment = wrapped(" ".join([described(call)] + lists), 96, " * ")
    marks = "PULDEHO_MUST_USE PULDEHO_NOT_NULL(1) " + access(own(call), 2)
    return "\n/*\n%s\n */\n%s\n%s;\n" % (comment, marks.rstrip(), head(call))


def function(call):
    """The same with its body."""
    if is_wide(call):
        return wide_function(call)
    count = call.count.name if call.count else "NULL"
    return "\n%s\n{\n    return puldeho_refusal_and_count(%s%s(\n        %s), %s);\n}\n" % (
        head(call), RAW, call.name, given(call), count)


def wide_function(call):
    """The body of a call whose count has 64 bits: two proved functions, the second only if somebody wants the count."""
    refusal, number = exports(call)
    return (
        "\n{0}\n{{\n    uint32_t refusal = {1}(\n        {4});\n    PULDEHO_ABI();\n"
        "    if ({2} != NULL)\n        *{2} = {3}(\n        {4});\n    return (enum puldeho_refusal)refusal;\n}}\n"
    ).format(head(call), refusal.name, call.count.name, number.name, given(call))


def why(call):
    """The declaration of the function that says why a call is refused."""
    listed = ["const struct puldeho_world *world"] + [declared(p) for p in own(call)] + ["char *text, size_t size"]
    place = 2 + sum(2 if is_list(p) else 1 for p in own(call))
    lists = access(own(call), 2) + "PULDEHO_LIST(write_only, %d, %d)" % (place, place + 1)
    return "PULDEHO_NOT_NULL(1) %s\nenum puldeho_refusal puldeho_why_%s(\n    %s);\n" % (lists, call.name, ",\n    ".join(listed))


def number(name, formula, text):
    """The function that gives a number of the grid, such as the length of a list."""
    terms = in_terms(formula, "(size_t)grid.%s", "puldeho_cells_in_layer(grid)").replace("*", " * ")
    return "\n%s\nstatic inline size_t puldeho_%s(struct puldeho_grid grid)\n{\n    return %s;\n}\n" % (comment(text), name, terms)


def field(lent):
    """The fields of a list in the world's struct."""
    own = "; null and 0: the world's own, below" if lent.kind == "own" else ""
    text = "%s: %s numbers%s" % (lent.what, lent.length.upper(), own)
    return "{0}\n    uint32_t *{1};\n    size_t {1}_length;".format(comment(text, "    "), lent.name)


def own_field(lent, tables):
    """The world's own list, at the end of the struct, so that a copy of the struct has one too."""
    return "\n    uint32_t own_%s[%d];" % (lent.name, largest(lent, tables))


def own_list(lent, tables):
    """The functions that find a list that was set or is the world's own."""
    return (
        "\n/* How many numbers of its own {0} a world of the grid lends. */\n"
        "static inline size_t puldeho_own_{0}_length(struct puldeho_grid grid)\n{{\n"
        "    size_t wanted = puldeho_{0}_length(grid);\n    return wanted < {1} ? wanted : {1};\n}}\n"
        "\n/* How many numbers of {0} are lent: those of the list that was set, or of the world's own. */\n"
        "static inline size_t puldeho_lent_{0}_length(const struct puldeho_world *world)\n{{\n"
        "    return world->{0} != NULL ? world->{0}_length : puldeho_own_{0}_length(world->grid);\n}}\n"
        "\n/* The world's {0}, to be read: the list that was set, or the world's own. */\n"
        "static inline const uint32_t *puldeho_lent_{0}(const struct puldeho_world *world)\n{{\n"
        "    return world->{0} != NULL ? world->{0} : world->own_{0};\n}}\n"
    ).format(lent.name, largest(lent, tables))


def other_length(lent):
    """Whether a list of two worlds has two lengths; `to` gets the grid of `from`, and so its own lists their length."""
    if lent.kind == "own":
        return "(to->{0} != NULL ? to->{0}_length : puldeho_own_{0}_length(from->grid)) != puldeho_lent_{0}_length(from)".format(lent.name)
    return "to->{0}_length != from->{0}_length".format(lent.name)


def copied(lent):
    """A list copied from one world to another."""
    name = lent.name
    if lent.kind == "own":
        return (
            "    if (puldeho_lent_{0}_length(from) > 0)\n        memcpy(to->{0} != NULL ? to->{0} : to->own_{0}, puldeho_lent_{0}(from),\n"
            "               puldeho_lent_{0}_length(from) * sizeof *to->{0});\n"
        ).format(name)
    return "    if (to->{0}_length > 0)\n        memcpy(to->{0}, from->{0}, to->{0}_length * sizeof *to->{0});\n".format(name)


def texts(refusals, field):
    """The cases of a switch that gives a text for each refusal."""
    return "\n".join('    case PULDEHO_REFUSAL_%s:\n        return "%s";' % (constant(r.name), getattr(r, field)) for r in refusals)


def stack(tables):
    """The stack of each call as lines of the header's comment."""
    names = [export.name for call in tables.calls for export in exports(call)]
    return "\n".join(" *   %-31s %9s" % (name, format(tables.stack[name], ",")) for name in names)


def header(tables):
    """bindings/puldeho.h."""
    major, minor, patch = tables.version.split(".")
    lists, asked, owned = world_lists(tables)
    return filled("puldeho.h", {
        "MADE": MADE,
        "VERSION": tables.version,
        "MAJOR": major,
        "MINOR": minor,
        "PATCH": patch,
        "STACK": stack(tables),
        "DEEPEST": str(max(tables.stack.values())),
        "LIMITS": "\n".join("%s\n#define PULDEHO_%s %d" % (comment(l.what), l.name, l.number) for l in tables.limits),
        "REFUSALS": ",\n".join("%s\n    PULDEHO_REFUSAL_%s = %d" % (comment(r.condition, "    "), constant(r.name), r.number) for r in tables.refusals),
        "LIMITERS": ",\n".join("%s\n    PULDEHO_LIMITER_%s = %d" % (comment(l.what, "    "), constant(l.name), l.number) for l in tables.limiters),
        "LIMITERPLACE": str(tables.limiter_place),
        "BOOKPLACE": str(tables.book_place),
        "CONDITIONS": texts(tables.refusals, "condition"),
        "REMEDIES": texts(tables.refusals, "remedy"),
        "FIELDS": "\n".join(map(field, lists)) + "".join(own_field(l, tables) for l in owned),
        "LISTS": ",\n    ".join("uint32_t *{0}, size_t {0}_length".format(l.name) for l in asked),
        "WORLDLISTS": " ".join("PULDEHO_LIST(write_only, %d, %d)" % (2 + 2 * i, 3 + 2 * i) for i in range(len(asked))),
        "SETS": "\n".join("    world.{0} = {0};\n    world.{0}_length = {0}_length;".format(l.name) for l in asked),
        "OWNLISTS": "".join(own_list(l, tables) for l in owned),
        "SAMELENGTHS": "\n        || ".join(map(other_length, lists)),
        "COPIES": "".join(map(copied, lists)),
        "LENGTHS": "".join(number(length_name(l), l.length, length_text(l)) for l in tables.lists),
        "BOUNDS": "".join(number(b.name, b.most, bound_text(b, tables)) for b in tables.bounds),
        "RAWS": "\n".join(map(raw, tables.calls)),
        "CALLS": "".join(map(prototype, tables.calls)),
        "BODIES": "".join(map(function, tables.calls)),
        "WHYSIZE": str(WHY_SIZE),
        "WHYS": "\n".join(map(why, tables.calls)),
    })


# The reader of scripts.


def made(call):
    """The function that takes the call's own arguments from a line of a script and makes the call."""
    mine = own(call)
    declarations = ["    %s%s;\n" % ("struct list " if is_list(p) else TYPES[p.type], p.name) for p in mine]
    declarations += ["    %s%s;\n" % (TYPES[call.count.type], call.count.name)] if call.count else []
    taken = ["!%s(&rest, &%s)" % (TAKEN[p.type], p.name) for p in mine] + ["!at_end(rest)"]
    freed = ["    free(%s.numbers);\n" % p.name for p in mine if is_list(p)]
    arguments = "".join(
        ", ({1}){0}.numbers, {0}.length".format(p.name, TYPES[p.type]) if is_list(p) else ", " + p.name for p in mine
    )
    count = ", &" + call.count.name if call.count else ""
    kept = "    outcome->count = %s;\n" % call.count.name if call.count else ""
    return (
        "\nstatic bool make_{0}(struct puldeho_world *world, char *rest, struct outcome *outcome)\n{{\n{1}"
        "    if ({2})\n        return false;\n"
        "    outcome->why = puldeho_why_{0}(world{3}, outcome->text, sizeof outcome->text);\n"
        "    outcome->refusal = puldeho_{0}(world{3}{4});\n{5}{6}    return true;\n}}\n"
    ).format(call.name, "".join(declarations), "\n        || ".join(taken), arguments, count, kept, "".join(freed))


def scripts(tables):
    """bindings/c/calls.c."""
    entries = "".join('    {"%s", make_%s},\n' % (call.name, call.name) for call in tables.calls)
    return (
        "/* %s */\n#include <stdlib.h>\n\n#include \"script.h\"\n%s\n"
        "const struct call calls[] = {\n%s    {NULL, NULL},\n};\n"
    ) % (MADE, "".join(map(made, tables.calls)), entries)

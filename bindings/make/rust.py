"""The Rust wrapper's made part, bindings/rust/src/calls.rs, and the comparison's calls, compare/src/library.rs."""
from tables import GRID, LIMITER, MADE, RAW, WHY_SIZE, WORLD, abi, bound_text, exports, filled, first_of, held, holder, in_terms, is_list, is_wide, is_written, largest, length_name
from tables import length_text, own, second_of, sets_limiter, world_lists

POINTERS = {"&[u32]": ("*const u32", "as_ptr"), "&mut [u32]": ("*mut u32", "as_mut_ptr"), "&[i32]": ("*const i32", "as_ptr")}


def refusals(tables):
    """The enum of the refusals."""
    cases = "".join("    /// %s\n    %s = %d,\n" % (r.condition, r.name, r.number) for r in tables.refusals)
    names = "".join("        Refusal::%s,\n" % r.name for r in tables.refusals)

    def texts(field):
        return "".join('            Refusal::%s => "%s",\n' % (r.name, getattr(r, field)) for r in tables.refusals)

    return (
        "/// Why a call was refused. It then changed nothing. `refusal as u32` is its number.\n"
        "#[derive(Clone, Copy, Debug, PartialEq, Eq)]\n#[non_exhaustive]\npub enum Refusal {\n%s}\n\n"
        "impl Refusal {\n    /// Every refusal, in the order of their numbers.\n"
        "    pub const ALL: &'static [Refusal] = &[\n%s    ];\n\n"
        "    /// The refusal's condition, in words.\n    pub fn condition(self) -> &'static str {\n"
        "        match self {\n%s        }\n    }\n\n"
        "    /// What to do about it, in words.\n    pub fn remedy(self) -> &'static str {\n"
        "        match self {\n%s        }\n    }\n}\n"
    ) % (cases, names, texts("condition"), texts("remedy"))


def number(name, formula, text):
    """The method that gives a number of the grid, such as the length of a list."""
    terms = in_terms(formula, "self.%s as usize", "self.cells_in_layer()").replace("*", " * ")
    return "\n    /// %s\n    pub fn %s(self) -> usize {\n        %s\n    }\n" % (text, name, terms)


def extern(call):
    """The proved functions as C has them."""
    lines = [", ".join(letter + ": u32" for letter in GRID)]
    for p in call.parameters:
        lines.append("%s: %s, %s_length: usize" % (p.name, POINTERS[p.type][0], p.name) if is_list(p) else "%s: %s" % p)
    one = "    fn %s(\n        %s,\n    ) -> %s;\n"
    return "".join(one % (export.name, ",\n        ".join(lines), export.returns) for export in exports(call))


def raw(call):
    """The safe function over lent lists."""
    lines = [", ".join("grid." + letter for letter in GRID)]
    for p in call.parameters:
        lines.append("%s.%s(), %s.len()" % (p.name, POINTERS[p.type][1], p.name) if is_list(p) else p.name)
    signature = "".join("        %s: %s,\n" % p for p in call.parameters)
    lent = ",\n                ".join(lines)
    made = ["unsafe {\n            %s(\n                %s,\n            )\n        }" % (export.name, lent) for export in exports(call)]
    return (
        "\n    /// %s\n    ///\n    /// Count: %s. Refusals, in order: %s.\n"
        "    pub fn %s(\n        grid: Grid,\n%s    ) -> Result<%s, Refusal> {\n"
        "        // SAFETY: each pointer goes with its slice's length, and the borrows keep all others from what is written.\n"
        "        %s(%s)\n    }\n"
    ) % (
        call.does, call.count.text if call.count else "0", call.refusals, call.name, signature, call.count.type if call.count else "u32",
        "wide_outcome" if is_wide(call) else "outcome", ", ".join(made),
    )


def taken(pairs, call):
    """What a method takes after the world, and the value that it has for each of the call's own parameters."""
    pair = second_of(pairs, call)
    if pair is not None:
        return ", counted: &%s" % pair.type, {p.name: "counted." + holder(pair, p) for p in own(call)}
    apart, mine = own(call), {p.name: p.name for p in own(call)}
    if sets_limiter(call):
        apart = apart[: -len(LIMITER)] + [(LIMITER[0][0], "Limiter")]
        mine.update((name, "limiter.numbers().%d" % place) for place, (name, _) in enumerate(LIMITER))
    return "".join(", %s: %s" % (name, kind) for name, kind in apart), mine


def lent(pairs, call):
    """The arguments of the function in raw: the world's lists, and the call's own."""
    _, mine = taken(pairs, call)
    borrowed = second_of(pairs, call) is not None
    for p in call.parameters:
        if p.name in WORLD:
            yield ("&mut self.%s" if is_written(p) else "&self.%s") % p.name
        else:
            yield "&" + mine[p.name] if is_list(p) and borrowed else mine[p.name]


def gives(pairs, call):
    """The type that a method gives, and what it is in words, if the call has a count."""
    first, second = first_of(pairs, call), second_of(pairs, call)
    if first is not None:
        return first.type, "a [`%s`] with %s" % (first.type, call.count.text)
    if call.count is None:
        return "()", None
    return call.count.type, "the count in `counted`" if second is not None else call.count.text


def method(pairs, call):
    """The call as a method of the world."""
    signature, _ = taken(pairs, call)
    made = "raw::%s(self.grid, %s)" % (call.name, ", ".join(lent(pairs, call)))
    result, words = gives(pairs, call)
    pair = first_of(pairs, call)
    if pair is not None:
        fields = ["%s: %s.to_vec()" % (p.name, p.name) if is_list(p) else p.name for p in held(pair)]
        made = "let %s = %s?;\n        Ok(%s { %s })" % (call.count.name, made, pair.type, ", ".join(fields))
    elif call.count is None:
        made += "?;\n        Ok(())"
    return (
        "\n    /// %s%s\n    ///\n    /// Refusals, in order: %s.\n"
        "    pub fn %s(&%sself%s) -> Result<%s, Refusal> {\n        %s\n    }\n"
    ) % (
        call.does, "\n    ///\n    /// It gives %s." % words if words else "", call.refusals, call.name,
        "mut " if call.world == "changed" else "", signature, result, made,
    )


def counted(pair):
    """The type of what a pair's first call gives and its second takes. Only the first makes one."""
    shown = {"u32": ("u32", "u32", ""), "u64": ("u64", "u64", ""), "&[u32]": ("Vec<u32>", "&[u32]", "&"), "&[i32]": ("Vec<i32>", "&[i32]", "&")}
    fields = "".join("    %s: %s,\n" % (p.name, shown[p.type][0]) for p in held(pair))
    reads = "".join(
        "\n    /// %s.\n    pub fn %s(&self) -> %s {\n        %sself.%s\n    }\n"
        % (pair.first.count.text[0].upper() + pair.first.count.text[1:] if p.name == pair.first.count.name else "As given to %s" % pair.first.name,
           p.name, shown[p.type][1], shown[p.type][2], p.name)
        for p in held(pair)
    )
    return (
        "\n/// %s. [`World::%s`] makes it, and [`World::%s`] takes it.\n"
        "#[derive(Clone, Debug, PartialEq, Eq)]\n#[must_use = \"the sweep was counted and is not made\"]\npub struct %s {\n%s}\n\nimpl %s {%s}\n"
    ) % (pair.what, pair.first.name, pair.second.name, pair.type, fields, pair.type, reads)


def limiters(tables):
    """The type of a limiter with the bounds that it reads."""
    cases = "".join(
        "    /// %s\n    %s%s,\n" % (l.what[0].upper() + l.what[1:], l.name, " { %s }" % ", ".join("%s: u64" % b for b in l.bounds) if l.bounds else "")
        for l in tables.limiters
    )

    def arms(shape):
        for l in tables.limiters:
            value = "Limiter::%s%s" % (l.name, " { %s }" % ", ".join(l.bounds) if l.bounds else "")
            yield shape % dict(value=value, number=l.number, bounds=", ".join(b if b in l.bounds else "0" for b, _ in LIMITER[1:]))

    return (
        "/// A tracer's limiter, with the bounds that it reads: mixing ratios (units of gas for one of air) in parts of [`SCALE`].\n"
        "#[derive(Clone, Copy, Debug, PartialEq, Eq)]\n#[non_exhaustive]\npub enum Limiter {\n%s}\n\n"
        "impl Limiter {\n    /// Its number, lo and hi, as [`raw::set_limiter`] takes them; a bound that it does not read is 0.\n"
        "    pub fn numbers(self) -> (u32, u64, u64) {\n        match self {\n%s        }\n    }\n\n"
        "    /// The limiter that has these in the ledger, if the number is one of a limiter.\n"
        "    fn standing(number: u32, lo: u64, hi: u64) -> Option<Limiter> {\n        match number {\n%s            _ => None,\n        }\n    }\n}\n"
    ) % (
        cases, "".join(arms("            %(value)s => (%(number)d, %(bounds)s),\n")), "".join(arms("            %(number)d => Some(%(value)s),\n")),
    )


def why_extern(call):
    """The C function that says why a call is refused."""
    listed = ["world: *const CWorld"]
    for p in own(call):
        listed.append("%s: %s, %s_length: usize" % (p.name, POINTERS[p.type][0], p.name) if is_list(p) else "%s: %s" % p)
    return "    fn puldeho_why_%s(%s) -> c_int;\n" % (call.name, ", ".join(listed + ["text: *mut c_char", "size: usize"]))


def why_method(pairs, call):
    """The same as a method of the world."""
    signature, mine = taken(pairs, call)
    given = []
    for p in own(call):
        name = mine[p.name]
        given.append("%s.as_ptr(), %s.len()" % (name, name) if is_list(p) else name)
    return (
        "\n    /// Why the call is refused in this world, in words; ask after the refusal, before the world changes.\n"
        "    pub fn why_%s(&self%s) -> String {\n        let world = self.lent();\n"
        "        // SAFETY: each pointer goes with its list's length, and nothing but the text is written.\n"
        "        words(|text, size| unsafe { puldeho_why_%s(%s) })\n    }\n"
    ) % (call.name, signature, call.name, ", ".join(["&world"] + given + ["text", "size"]))


def wrapper(tables):
    """bindings/rust/src/calls.rs."""
    lists, asked, owned = world_lists(tables)
    load = next(call for call in tables.calls if call.name == "load")
    made = ["%s: %s.into()" % (l.name, l.name) for l in asked]
    made += ["%s: vec![0; grid.%s().min(%d)]" % (l.name, length_name(l), largest(l, tables)) for l in owned]
    return filled("calls.rs", {
        "MADE": MADE,
        "VERSION": tables.version,
        "ABI": abi(tables),
        "LIMITS": "".join("/// %s\npub const %s: u32 = %d;\n" % (l.what[0].upper() + l.what[1:], l.name, l.number) for l in tables.limits),
        "REFUSALS": refusals(tables),
        "LIMITERS": limiters(tables),
        "LIMITERPLACE": str(tables.limiter_place),
        "BOOKPLACE": str(tables.book_place),
        "LENGTHS": "".join(number(length_name(l), l.length, length_text(l)) for l in tables.lists),
        "BOUNDS": "".join(number(b.name, b.most, bound_text(b, tables)) for b in tables.bounds),
        "FIELDS": "".join("    %s: Vec<u32>,\n" % l.name for l in lists),
        "GIVEN": ", ".join("%s: impl Into<Vec<u32>>" % l.name for l in asked),
        "MADEOF": ", ".join(made),
        "MUT": "mut " if any(map(is_written, load.parameters)) else "",
        "LENT": ", ".join(("&mut world." if is_written(p) else "&world.") + p.name for p in load.parameters),
        "READ": "".join(
            "\n    /// %s.\n    pub fn %s(&self) -> &[u32] {\n        &self.%s\n    }\n" % (l.what[0].upper() + l.what[1:], l.name, l.name)
            for l in lists
        ),
        "METHODS": "".join(method(tables.pairs, call) for call in tables.calls if call.name != "load"),
        "PAIRS": "".join(map(counted, tables.pairs)),
        "WHYS": "".join(why_method(tables.pairs, call) for call in tables.calls if call.name != "load"),
        "WHYEXTERNS": "".join(map(why_extern, tables.calls)),
        "WHYSIZE": str(WHY_SIZE),
        "CFIELDS": "".join("    {0}: *const u32,\n    {0}_length: usize,\n".format(l.name) for l in lists)
        + "".join("    own_%s: [u32; %d],\n" % (l.name, largest(l, tables)) for l in owned),
        "CVALUES": "".join("            {0}: self.{0}.as_ptr(),\n            {0}_length: self.{0}.len(),\n".format(l.name) for l in lists)
        + "".join("            own_%s: [0; %d],\n" % (l.name, largest(l, tables)) for l in owned),
        "EXTERNS": "".join(map(extern, tables.calls)).replace("\n", "\n    ").rstrip(" "),
        "RAWS": "".join(map(raw, tables.calls)),
    })


# The comparison with the second implementation.


def case(call):
    """The case of the second implementation's Call."""
    return "Call::" + "".join(part.capitalize() for part in call.name.split("_"))


def pattern(call):
    """The same with its fields."""
    fields = ", ".join(p.name for p in own(call))
    return case(call) + (" { %s }" % fields if fields else "")


def compared(tables):
    """compare/src/library.rs."""
    made, names, named, rows, lines = "", "", "", "", ""
    for call in tables.calls:
        given = [p.name if is_list(p) else "*" + p.name for p in call.parameters]
        widened = "" if is_wide(call) else ".map(u64::from)"
        made += "        %s => {\n            raw::%s(grid, %s)%s\n        }\n" % (pattern(call), call.name, ", ".join(given), widened)
        names += '        %s { .. } => "%s",\n' % (case(call), call.name)
        named += "        %s { .. } => &[%s],\n" % (case(call), ", ".join(call.refusals.split()))
        rows += '    ("%s", &[%s]),\n' % (call.name, ", ".join(call.refusals.split()))
        words = "".join("{}" if is_list(p) else " {%s}" % p.name for p in own(call))
        lists = "".join(", numbers(%s)" % p.name for p in own(call) if is_list(p))
        lines += '        %s => format!("%s%s"%s),\n' % (pattern(call), call.name, words, lists)
    lists = ", ".join(l.name for l in world_lists(tables)[0])
    return filled("library.rs", {"MADE": MADE, "LISTS": lists, "CALLS": made, "NAMES": names, "NAMED": named, "TABLE": rows, "LINES": lines})

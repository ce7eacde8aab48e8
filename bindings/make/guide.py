"""The table of refusals in docs/GUIDE.md, with causes and remedies, and the table of calls in README.md."""
import re
import sys

from tables import is_list, own, second_of, sets_limiter

GUIDE, README = "docs/GUIDE.md", "README.md"


def between(path, name, made):
    """A file with something made between its two marks of a name."""
    begin, end = "<!-- %s: made by tools/bindings -->\n" % name, "<!-- %s end -->\n" % name
    text = open(path, encoding="utf-8").read()
    if text.count(begin) != 1 or text.count(end) != 1:
        sys.exit("%s: the marks of the table of %s do not stand there once" % (path, name))
    return re.sub(re.escape(begin) + ".*?" + re.escape(end), lambda _: begin + "\n" + made + "\n" + end, text, flags=re.S)


def table(heads, rows):
    """A table of Markdown."""
    lines = [heads, ["---"] * len(heads)] + rows
    return "".join("| %s |\n" % " | ".join(line) for line in lines).replace("| --- ", "|---").replace("--- |", "---|")


def guide(tables):
    """docs/GUIDE.md."""
    all_of_them = sorted(tables.refusals + tables.programs, key=lambda r: r.number)
    rows = [[str(r.number), r.condition, r.cause, r.remedy] for r in all_of_them]
    return between(GUIDE, "refusals", table(["Refusal", "Condition", "Usual cause", "What to do"], rows))


def arguments(call, lengths, pairs):
    """A call's own arguments, a list with its length; where a language has another value for some of them, that too."""
    words = ["%s (%s numbers)" % (p.name, lengths[call.name, p.name]) if is_list(p) else p.name for p in own(call)]
    pair = second_of(pairs, call)
    apart = "; in Python and Rust what `%s` gave" % pair.first.name if pair else "; in Rust the last three as one `Limiter`" if sets_limiter(call) else ""
    return (", ".join(words) or "–") + apart


def count(call):
    """A call's count with its name."""
    return "%s: %s" % (call.count.name, call.count.text) if call.count else "–"


def readme(tables):
    """README.md."""
    lengths = {(lent.owner, lent.name): lent.length.upper().replace("*", "·") for lent in tables.lists}
    rows = [
        ["`%s`" % call.name, arguments(call, lengths, tables.pairs), call.refusals, count(call)] for call in tables.calls
    ]
    return between(README, "calls", table(["Call", "Arguments beside the world", "Refusals, in order", "Count"], rows))

"""What tools/run prints: the records with what came out and why, the records counted by kind, and their sum."""
import collections
import textwrap

import records

WIDTH = 110
# For so many refused records of one kind and one number it is said why.
WHYS = 5
# A run of more records than MOST is shown in part: so many first and last ones, and each refused one that has its why.
MOST, FIRST, LAST = 1000, 100, 20

CHANGES = (("sweeps", ("zonal", "meridional")), ("remaps", ("remap",)), ("emissions and withdrawals", ("emission", "withdrawal")))


def number_of(told):
    """A record's refusal, 0 if it was accepted, None if it was not read."""
    return told.answer and told.answer[1]


def kind_name(told):
    """The name of a record's kind."""
    kind = told.answer[0]
    return records.NAMES[kind - 1] if 1 <= kind <= len(records.NAMES) else "unknown kind %d" % kind


def first_refusal(run):
    """The index of the first refused record; None if there is none."""
    return next((index for index, told in enumerate(run.told) if number_of(told)), None)


def counted(run):
    """How many records have each pair of kind and answer."""
    return collections.Counter((kind_name(told), number_of(told)) for told in run.told if told.answer)


def many(count, one, more):
    """A number and its noun."""
    return "%d %s" % (count, one if count == 1 else more)


# Why.


def paragraph(start, words):
    """Words under a record, in lines."""
    return textwrap.wrap(
        start + words, WIDTH, initial_indent=" " * 8, subsequent_indent=" " * 10, break_long_words=False, break_on_hyphens=False
    )


def passed_limits(grid):
    """The runner program's limits that a grid passes, in words."""
    sizes = (("K*C", records.cells(grid), records.MOST_CELLS), ("N", grid.gases, records.MOST_GASES))
    return "; ".join("%s is %d, the program takes at most %d" % size for size in sizes if size[1] > size[2])


def why_lines(told, why):
    """Why a record was refused, and for a refusal of the program what its table says."""
    number = number_of(told)
    if number == 15:
        why = passed_limits(records.Grid(*sum(told.record.parts, [])))
    lines = paragraph("why: ", why) if why is not None else []
    if number <= 12:
        return lines
    refusal = records.refusals()[number]
    return lines + paragraph("usual cause: ", refusal.cause) + paragraph("what to do: ", refusal.remedy)


def explained(run, whys):
    """For the refused records of which it is said why, by index: the lines that say it."""
    counts, so_far, found = counted(run), collections.Counter(), {}
    for index, told in enumerate(run.told):
        number = number_of(told)
        if not number:
            continue
        pair = kind_name(told), number
        so_far[pair] += 1
        if so_far[pair] <= WHYS:
            found[index] = why_lines(told, whys.get(index))
        if so_far[pair] == WHYS and counts[pair] > WHYS:
            rest = "%d later %s records are refused with %d; it is not said why for each" % (counts[pair] - WHYS, *pair)
            found[index] += paragraph("", rest)
    return found


# The records.


def gap(run, start, end):
    """One line for the records from one index up to another, which are not shown."""
    numbers = [number_of(told) for told in run.told[start:end]]
    parts = ["%d accepted" % numbers.count(0), "%d refused" % (len(numbers) - numbers.count(0) - numbers.count(None))]
    parts += ["%d not read" % numbers.count(None)] if None in numbers else []
    return ".. records %d to %d are not shown: %s; --all shows them" % (start + 1, end, ", ".join(parts))


def record_lines(run, whys, show_all):
    """The lines of the records that are shown."""
    reasons, size = explained(run, whys), len(run.told)
    in_part = size > MOST and not show_all
    indices = sorted({*range(FIRST), *range(size - LAST, size), *reasons}) if in_part else range(size)
    shown, next_one = [], 0
    for index in indices:
        if index > next_one:
            shown.append(gap(run, next_one, index))
        shown += records.told_lines(run.told[index]) + reasons.get(index, [])
        next_one = index + 1
    return shown


# The summary.


def kind_text(name, counts):
    """A kind's accepted and refused records."""
    accepted = counts[name, 0]
    refused = sorted((number, count) for (kind, number), count in counts.items() if kind == name and number)
    text = "%s %s accepted" % (name, accepted or "none")
    if len(refused) == 1:
        text += ", %d refused with %d" % refused[0][::-1]
    elif refused:
        numbers = ", ".join("%d with %d" % (count, number) for number, count in refused)
        text += ", %d refused (%s)" % (sum(count for number, count in refused), numbers)
    return text


def by_kind(counts):
    """The accepted and refused records of each kind."""
    present = {name for name, number in counts}
    names = [name for name in records.NAMES if name in present] + sorted(present - set(records.NAMES))
    return "; ".join(kind_text(name, counts) for name in names)


def nothing_changed(counts):
    """A line for the sweeps, and for the emissions, if every one of them was refused."""
    lines = []
    for words, names in CHANGES:
        refused = sum(count for (name, number), count in counts.items() if name in names and number)
        if refused and not any(counts[name, 0] for name in names):
            lines.append("%s: none of %d accepted, so they changed nothing" % (words, refused))
    return lines


def early_end(run):
    """A line if the program ended before the last record, or inside it."""
    read = [told for told in run.told if told.answer]
    if not read or not records.ends(*read[-1].answer[:2]):
        return []
    number = number_of(read[-1])
    if number == 14:
        rest = "the input ends inside it"
    else:
        rest = "%s after it %s not read" % (many(run.unread, "record", "records"), "was" if run.unread == 1 else "were")
    return ["the program ended at record %d, line %d of the text, refused with %d: %s" % (len(read), read[-1].line, number, rest)]


def sum_line(run, counts):
    """The records counted: all, and by kind."""
    accepted = sum(count for (name, number), count in counts.items() if not number)
    refused = sum(counts.values()) - accepted
    line = "records: %d, accepted %d, %s %d" % (
        accepted + refused + run.unread, accepted, "REFUSED" if refused else "refused", refused)
    line += ", not read %d" % run.unread if run.unread else ""
    first = first_refusal(run)
    if first is not None:
        told = run.told[first]
        line += "; first refused: record %d, line %d of the text, with %d" % (first + 1, told.line, number_of(told))
    return line + ("; by kind: " + by_kind(counts) if counts else "")


def summary(run):
    """The lines of the summary; the last one counts the records."""
    counts = counted(run)
    return nothing_changed(counts) + early_end(run) + [sum_line(run, counts)]

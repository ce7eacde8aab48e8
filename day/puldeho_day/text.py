"""A run as text, split into records: a word and its numbers each. Shared by tools/records and puldeho_day.calls_text.

It imports the standard library alone, since tools/records runs without numpy.
"""
import collections
import itertools
import re

Word = collections.namedtuple("Word", "text line")
TextRecord = collections.namedtuple("TextRecord", "line words notes")

MOST_REPEATS = 1000000
NUMBER = re.compile(r"(-?[0-9]+)(?:\*([0-9]+))?")


class BadText(Exception):
    """Bad text, with the line it stands in."""

    def __init__(self, line, words):
        super().__init__("line %d: %s" % (line, words))


def text_records(text):
    """The records of a text: where each starts, its words, and the comments above it."""
    records, notes = [], []
    for line, written in enumerate(text.split("\n"), 1):
        before, sharp, note = written.partition("#")
        words = [Word(word, line) for word in before.split()]
        if not words:
            notes += [note.strip()] if sharp else []
        elif written[0] not in " \t":
            records.append(TextRecord(line, words, notes))
            notes = []
        elif records:
            records[-1].words.extend(words)
        else:
            raise BadText(line, "an indented line continues the record above it, and there is none")
    return written_out(records)


def times(repeat):
    """How often a repeat says that its records stand there."""
    found = [value for value, line in numbers(repeat.words[1:])]
    if len(found) != 1 or not 1 <= found[0] <= MOST_REPEATS:
        raise BadText(repeat.line, "a repeat is written: repeat TIMES, from 1 to %d" % MOST_REPEATS)
    return found[0]


def written_out(records):
    """The records, with those between a repeat and its end as often as it says. Comments stand in the first turn."""
    found, notes, repeat = [], [], None
    for record in records:
        name, notes = record.words[0].text, notes + record.notes
        if name == "repeat" and repeat:
            raise BadText(record.line, "a repeat inside that of line %d, which has no end yet" % repeat.line)
        elif name == "repeat":
            repeat, first, more = record, len(found), times(record) - 1
        elif name == "end" and (not repeat or record.words[1:]):
            raise BadText(record.line, "an end stands alone in its line, after a repeat")
        elif name == "end":
            found += [turn._replace(notes=[]) for turn in found[first:]] * more
            repeat = None
        else:
            found.append(record._replace(notes=notes))
            notes = []
    if repeat:
        raise BadText(repeat.line, "a repeat without an end")
    return found


def numbers(words, most_digits=12):
    """The numbers that the words give, each with its line."""
    found = []
    for word in words:
        match = NUMBER.fullmatch(word.text)
        if not match:
            raise BadText(word.line, "'%s' is not a number such as 100 or -5, nor a repeated one such as 100*6" % word.text)
        if max(map(len, match.groups(""))) > most_digits:
            raise BadText(word.line, "'%s' is too large" % word.text)
        times = int(match.group(2) or 1)
        if not 1 <= times <= MOST_REPEATS:
            raise BadText(word.line, "'%s' repeats a number, but not 1 to %d times" % (word.text, MOST_REPEATS))
        found += [(int(match.group(1)), word.line)] * times
    return found


def lengths(name, wanted, given, line):
    """How many of the given numbers each part of a record gets. `wanted` has the parts' names and lengths; the length None is any."""
    counts = [count for _, count in wanted]
    fixed = sum(count for count in counts if count is not None)
    if None in counts and given >= fixed:
        return [given - fixed if count is None else count for count in counts]
    if given != fixed:
        names = [part if count in (1, None) else "%d %s" % (count, part) for part, count in wanted]
        least = "at least " if None in counts else ""
        raise BadText(line, "%s wants %s%d numbers here (%s), and has %d" % (name, least, fixed, ", ".join(names), given))
    return counts


def divided(name, wanted, found, line):
    """The numbers of a record, as a list for each of its parts."""
    counts = lengths(name, wanted, len(found), line)
    return [found[end - count : end] for count, end in zip(counts, itertools.accumulate(counts))]


def check_range(name, found, low, high):
    """Fails at the first number that is outside the range."""
    for value, line in found:
        if not low <= value <= high:
            raise BadText(line, "%s: %d is not from %d to %d" % (name, value, low, high))


def load_lists(words, line):
    """The words of air and of tracers in a load, each with the line that the list starts in."""
    texts = [word.text for word in words]
    if texts[:1] != ["air"] or texts.count("tracers") != 1:
        raise BadText(line, "a load is written: load air AMOUNT.. tracers AMOUNT..")
    middle = texts.index("tracers")
    return [(words[1:middle], line), (words[middle + 1 :], words[middle].line)]

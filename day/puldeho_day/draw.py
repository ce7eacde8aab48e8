"""Figures as SVG text for any grid of Puldeho: a map of the globe, a zonal mean, a time series.
Also the colour levels that figures share, and an HTML page that shows figures, texts and tables."""
import itertools
import math
import re
import textwrap
from xml.sax.saxutils import escape, quoteattr

import numpy as np

NOISE = 2e-12  # a difference below this share of the largest number is a rounding error
LOW_TO_HIGH = "#fde725 #addc30 #5ec962 #28ae80 #21918c #2c728e #3b528b #472d7b #440154".split()  # viridis, light to dark
ABSENT = "#f5f5f5"  # the first interval where the lowest level is 0
LINES = "#000000 #e69f00 #0072b2 #d55e00 #009e73 #cc79a7 #56b4e9".split()  # told apart by the colour-blind too
DASHES = ["none", "9 4", "2 3", "9 3 2 3"]
NUMBER = re.compile(r"[+−-]?[\d,]*\.?\d+(e[+-]?\d+)?( ?%)?")
SUPERSCRIPTS = str.maketrans("-0123456789", "⁻⁰¹²³⁴⁵⁶⁷⁸⁹")
STYLE = """body { font-family: Helvetica, Arial, 'DejaVu Sans', sans-serif; line-height: 1.5; color: #222; max-width: 62rem;
  margin: 2rem auto; padding: 0 1rem; }
p { max-width: 42rem; }
h2 { margin-top: 2.5rem; }
img { max-width: 100%; height: auto; }
pre { background: #f5f5f5; padding: 1rem; overflow-x: auto; line-height: 1.35; }
.table { overflow-x: auto; }
table { border-collapse: collapse; border-bottom: 1px solid #444; }
th, td { padding: 0.25rem 0.9rem; text-align: left; vertical-align: top; }
thead { border-top: 1px solid #444; border-bottom: 1px solid #444; }
.number { text-align: right; font-variant-numeric: tabular-nums; }"""


def nice_levels(values, most=10):
    """Rising levels at round numbers that cover the values: 5 to `most` (8 or more), or 2 where all values are equal."""
    low, high = float(np.min(values)), float(np.max(values))
    noise = NOISE * max(abs(low), abs(high))
    if high - low <= 4 * noise:
        return pair_around(low)
    power = math.floor(math.log10((high - low) / most))
    for exponent, digits in itertools.product((power, power + 1, power + 2), (1, 2, 2.5, 5)):
        step = digits * 10.0 ** exponent
        first, last = math.floor((low + noise) / step), math.ceil((high - noise) / step)
        if last - first < most:
            break
    return np.array([float("%.15g" % (step * one)) for one in range(first, last + 1)])


def pair_around(value):
    """A round number below the value and one above it; 0 and 1 for the value 0."""
    if value == 0:
        return np.array([0.0, 1.0])
    step = 0.5 * 10.0 ** math.floor(math.log10(abs(value)) + 1e-9)
    pair = math.floor(value / step - 1e-6), math.ceil(value / step + 1e-6)
    return np.array([float("%.15g" % (step * one)) for one in pair])


def shared_levels(list_of_arrays):
    """The levels for several arrays together, so that their figures can be compared by eye."""
    return nice_levels(np.concatenate([np.ravel(one) for one in list_of_arrays]))


def intervals(values, levels):
    """The number of the interval between levels for each value; values outside the levels are in the end intervals."""
    noise = NOISE * np.max(np.abs(levels))
    return np.clip(np.searchsorted(levels, values + noise, side="right") - 1, 0, len(levels) - 2)


def colours(levels):
    """The colour of each interval between levels, from light to dark; near white for the first if it begins at 0."""
    absent = int(levels[0] == 0)
    count = len(levels) - 1 - absent
    places = (np.arange(count) + 0.5) / max(count, 1) * (len(LOW_TO_HIGH) - 1)
    anchors = np.array([list(bytes.fromhex(colour[1:])) for colour in LOW_TO_HIGH])
    channels = [np.rint(np.interp(places, range(len(anchors)), channel)).astype(int) for channel in anchors.T]
    return [ABSENT] * absent + ["#%02x%02x%02x" % colour for colour in zip(*channels)]


def short(number):
    """A coordinate in at most six decimals."""
    text = ("%.6f" % number).rstrip("0").rstrip(".")
    return "0" if text == "-0" else text


def label(x, y, words, anchor="middle", size=13, turn=False):
    """Words at a place, to be read upward if `turn`; no words, no text."""
    form = 'transform="translate(%s %s) rotate(-90)"' if turn else 'x="%s" y="%s"'
    place = form % (short(x), short(y))
    return '<text %s text-anchor="%s" font-size="%d">%s</text>\n' % (place, anchor, size, escape(words)) if words else ""


def figure(title, subtitle, left, width, height, body):
    """The whole SVG text: the headings, and below them the body, whose origin is the plot's upper left corner."""
    heads = [(20, 27, line) for line in textwrap.wrap(title, 76)] + [(14, 21, line) for line in textwrap.wrap(subtitle, 110)]
    feet = list(itertools.accumulate((step for _, step, _ in heads), initial=10))
    top = feet[-1] + 36
    size = (width, top + height)
    text = '<svg xmlns="http://www.w3.org/2000/svg" viewBox="0 0 %d %d" width="%d" height="%d" role="img" ' % (size + size)
    text += 'font-family="Helvetica, Arial, \'DejaVu Sans\', sans-serif" fill="#222">\n<title>%s</title>\n' % escape(title)
    text += '<rect width="%d" height="%d" fill="#fff"/>\n' % size
    text += "".join(label(24, foot, line, "start", font) for (font, _, line), foot in zip(heads, feet[1:]))
    return text + '<g transform="translate(%d %d)">\n%s</g>\n</svg>\n' % (left, top, body)


def bottom_axis(places, texts, name, width, height):
    """Ticks with their texts below a plot, and the axis's name."""
    text = '<path d="%s" stroke="#444"/>\n' % "".join("M%s %dv5" % (short(x), height) for x in places)
    text += "".join(label(x, height + 20, words) for x, words in zip(places, texts))
    return text + label(width / 2, height + 43, name, size=14)


def left_axis(places, texts, name, height):
    """Ticks with their texts left of a plot, and the axis's name."""
    text = '<path d="%s" stroke="#444"/>\n' % "".join("M0 %sh-5" % short(y) for y in places)
    text += "".join(label(-9, y + 4.5, words, "end") for y, words in zip(places, texts))
    return text + label(-24 - 8 * max(map(len, texts)), height / 2, name, size=14, turn=True)


def degrees(number, signs):
    """Degrees of longitude or latitude as words; `signs` are the letters for a negative and for a positive number."""
    return "%d°%s" % (abs(number), "" if number in (-180, 0, 180) else signs[number > 0])


def ten_to_the(power):
    """A power of ten as words."""
    return "10" + str(power).translate(SUPERSCRIPTS)


def in_full(number):
    """A positive number as words, with commas between thousands, or with a power of ten if it is very small or large."""
    power = 0 if 0.01 <= number < 1e12 else math.floor(math.log10(number) + 1e-9)
    number /= 10.0 ** power
    text = format(round(number), ",") if abs(number - round(number)) < 1e-9 else format(number, ",.10g")
    return "%s × %s" % (text, ten_to_the(power)) if power else text


def axis_offset(ticks):
    """A round number to take off ticks of which four digits are not enough to tell them apart; else 0."""
    if np.max(np.abs(ticks)) < 2e3 * np.min(np.diff(ticks)):
        return 0.0
    unit = 10.0 ** math.ceil(math.log10(ticks[-1] - ticks[0]) - 1e-9)
    return float("%.15g" % (math.floor(ticks[0] / unit + 1e-6) * unit))


def axis_numbers(ticks, offset, unit):
    """The texts of ticks less their offset, the unit of these texts (with a power of ten if need be), the offset's text."""
    rest = np.asarray(ticks) - offset
    largest = np.max(np.abs(rest))
    power = 0 if 0.010001 < largest < 9999.5 else math.floor(math.log10(largest) + 1e-9)
    scaled = rest / 10.0 ** power
    near = np.min(np.diff(scaled)) / 1000
    decimals = next((count for count in range(9) if np.max(np.abs(np.round(scaled, count) - scaled)) < near), 9)
    texts = ["%.*f" % (decimals, round(one, decimals) + 0.0) for one in scaled]
    scale = "%s %s" % (ten_to_the(power), unit) if power else unit
    plus = "%s %s %s" % ("+" if offset > 0 else "−", in_full(abs(offset)), unit) if offset else ""
    return [text.replace("-", "−") for text in texts], scale.strip(), plus.strip()


def colour_bar(levels, unit, left, height):
    """The colours from low to high, the levels between them, and the unit."""
    texts, scale, plus = axis_numbers(levels, axis_offset(levels), unit)
    feet = np.linspace(height, 0, len(levels))
    text = '<g class="bar" shape-rendering="crispEdges">\n'
    for colour, foot, top in zip(colours(levels), feet, feet[1:]):
        text += '<rect x="%d" y="%s" width="20" height="%s" fill="%s"/>\n' % (left, short(top), short(foot - top), colour)
    text += '</g>\n<rect x="%d" width="20" height="%d" fill="none" stroke="#444"/>\n' % (left, height)
    text += '<path d="%s" stroke="#444"/>\n' % "".join("M%d %sh5" % (left + 20, short(foot)) for foot in feet)
    text += "".join(label(left + 29, foot + 4.5, words, "start") for foot, words in zip(feet, texts))
    text += label(left + 50 + 8 * max(map(len, texts)), height / 2, scale, size=14, turn=True)
    return text + label(left + 120, -14, plus, "end")


def runs(band, across):
    """The runs of equal numbers in a band: the number, where the run begins and where it ends."""
    ends = [*np.flatnonzero(np.diff(band)) + 1, len(band)]
    return [(band[start], across[start], across[end]) for start, end in zip([0, *ends], ends)]


def cells(bands, across, along, levels, transform):
    """Bands of values as one path for each colour, in the units of the edges `across` a band and `along` the bands."""
    paths = [""] * (len(levels) - 1)
    for band, start, end in zip(intervals(np.asarray(bands), levels), along, along[1:]):
        for number, left, right in runs(band, across):
            wide = short(right - left)
            paths[number] += "M%s %sh%sv%sh-%sz" % (short(left), short(start), wide, short(end - start), wide)
    text = "".join('<path fill="%s" d="%s"/>\n' % pair for pair in zip(colours(levels), paths) if pair[1])
    return '<g class="cells" shape-rendering="crispEdges" transform="%s">\n%s</g>\n' % (transform, text)


def columns_from_180_west(west, count):
    """The longitudes of the columns' edges from 180 W to 180 E, and the column between each two of them.
    The column across the date line, if there is one, is the first and also the last."""
    width = 360 / count
    steps = round((west + 180) % 360 / width, 9)
    whole = math.floor(steps)
    starts = -180 + width * (steps - whole) + width * np.arange(count)
    if steps == whole:
        return [*starts, 180.0], (np.arange(count) - whole) % count
    return [-180.0, *starts, 180.0], (np.arange(-1, count) - whole) % count


def globe_map(title, subtitle, values, west, edges, unit, levels=None):
    """A map of one layer: `values` in the order of the cells, `west` the west edge of column 0 in degrees east,
    `edges` the latitudes of the rows' edges from south to north. A cap is a band over all longitudes."""
    values = np.asarray(values, dtype=float)
    levels = nice_levels(values) if levels is None else np.asarray(levels, dtype=float)
    rows = values[1:-1].reshape(len(edges) - 1, -1)
    across, columns = columns_from_180_west(west, rows.shape[1])
    bands = [values[[0] * len(columns)], *rows[:, columns], values[[-1] * len(columns)]]
    easts, norths = range(-180, 181, 60), range(-90, 91, 30)
    x, y = [360 + 2 * east for east in easts], [180 - 2 * north for north in norths]
    text = cells(bands, across, [-90.0, *edges, 90.0], levels, "translate(360 180) scale(2 -2)")
    text += '<path d="%s" stroke="#aaa" stroke-width="0.7"/>\n' % (
        "".join("M%d 0v360" % one for one in x[1:-1]) + "".join("M0 %dh720" % one for one in y[1:-1]))
    text += '<rect width="720" height="360" fill="none" stroke="#444"/>\n'
    text += bottom_axis(x, [degrees(east, "WE") for east in easts], "longitude", 720, 360)
    text += left_axis(y, [degrees(north, "SN") for north in norths], "latitude", 360)
    return figure(title, subtitle, 80, 960, 420, text + colour_bar(levels, unit, 744, 360))


def section(title, subtitle, values, edges, shares, unit, levels=None):
    """A zonal mean: `values` by layers from the top down and bands from the south cap to the north cap, `edges` the
    latitudes of the rows' edges, `shares` the share of the column's air above each edge of a layer, from 0 to 1."""
    values = np.asarray(values, dtype=float)
    levels = nice_levels(values) if levels is None else np.asarray(levels, dtype=float)
    norths = range(-90, 91, 30)
    text = cells(values, [-90.0, *edges, 90.0], shares, levels, "translate(360 0) scale(4 360)")
    text += '<rect width="720" height="360" fill="none" stroke="#444"/>\n'
    text += bottom_axis([360 + 4 * north for north in norths], [degrees(north, "SN") for north in norths], "latitude", 720, 360)
    text += left_axis(range(0, 361, 72), ["%.1f" % (one / 5) for one in range(6)], "share of the column's air above", 360)
    return figure(title, subtitle, 80, 960, 420, text + colour_bar(levels, unit, 744, 360))


def value_ticks(values):
    """The ticks for the values of lines, and the offset that their texts leave out: the value itself where all are equal."""
    ticks = nice_levels(values, 8)
    if len(ticks) > 2:
        return ticks, axis_offset(ticks)
    value = float(values[0])
    power = math.floor(math.log10(abs(value)) + 1e-9) if value else 1
    step = 10.0 ** (max(0, power - 10) if power > 0 else power - 1)
    brief = abs(value) < 1e4 * step and abs(value / step - round(value / step)) < 1e-6
    return value + step * np.array([-1, 0, 1]), 0.0 if brief else value


def hour_ticks(first, last):
    """Round hours from the first to the last: parts of a day, or days where the time is long."""
    parts = [digit * 10.0 ** power for power in (-3, -2, -1) for digit in (1, 2, 5)] + [1, 2, 3, 6, 12]
    days = [24 * digit * 10 ** power for power in range(6) for digit in (1, 2, 5)]
    step = next(one for one in parts + days if last - first <= 9 * one)
    return [step * one for one in range(math.ceil(first / step - 1e-6), math.floor(last / step + 1e-6) + 1)]


def pen(number):
    """The colour and the dashes of a line, as attributes."""
    return 'fill="none" stroke="%s" stroke-dasharray="%s" stroke-width="2"' % (LINES[number % len(LINES)], DASHES[number % len(DASHES)])


def line(number, places):
    """A line through places, with a dot at its end."""
    text = '<polyline points="%s" %s/>\n' % (" ".join("%.2f,%.2f" % place for place in places), pen(number))
    return text + '<circle cx="%.2f" cy="%.2f" r="3" fill="%s"/>\n' % (*places[-1], LINES[number % len(LINES)])


def legend(names, left):
    """The pens of the lines with their names, below each other, and the height of them all."""
    text, top = "", 0
    for number, name in enumerate(names):
        words = textwrap.wrap(name, 22) or [""]
        text += '<path d="M%d %dh38" %s/>\n' % (left, top + 8, pen(number))
        text += "".join(label(left + 46, top + 13 + 17 * row, line, "start") for row, line in enumerate(words))
        top += 17 * len(words) + 9
    return text, top


def series(title, subtitle, hours, lines, unit):
    """A time series: `lines` are pairs of a name and its numbers, one for each of the hours."""
    ticks, offset = value_ticks(np.concatenate([np.asarray(numbers, dtype=float) for _, numbers in lines]))
    first, last = (min(hours), max(hours)) if max(hours) > min(hours) else (hours[0] - 0.5, hours[0] + 0.5)

    def across(hour):
        return 600 * (hour - first) / (last - first)

    def down(number):
        return 308 - 296 * (number - ticks[0]) / (ticks[-1] - ticks[0])

    times = hour_ticks(first, last)
    x, y = [across(time) for time in times], [down(tick) for tick in ticks]
    texts, scale, plus = axis_numbers(ticks, offset, unit)
    names, height = legend([name for name, _ in lines], 624)
    grid = "".join("M%s 0v320" % short(one) for one in x) + "".join("M0 %sh600" % short(one) for one in y)
    text = '<path d="%s" stroke="#ddd"/>\n<rect width="600" height="320" fill="none" stroke="#444"/>\n' % grid
    text += bottom_axis(x, [short(time) for time in times], "hours", 600, 320) + left_axis(y, texts, scale, 320)
    text += label(0, -10, plus, "start")
    for number, (_, numbers) in enumerate(lines):
        text += line(number, [(across(hour), down(one)) for hour, one in zip(hours, numbers)])
    return figure(title, subtitle, 100, 960, max(380, height + 20), text + names)


def is_number(text):
    """Whether a cell of a table is a number, with or without commas and a per cent sign."""
    return NUMBER.fullmatch(text) is not None


def cell(tag, text, right):
    """One cell of a table, at its right side if `right`."""
    return "<%s%s>%s</%s>" % (tag, ' class="number"' if right else "", escape(text), tag)


def table(heads, rows):
    """A table; numbers, and the heads of columns that hold nothing else, are right-aligned."""
    right = [bool(rows) and all(is_number(row[column]) for row in rows) for column in range(len(heads))]
    text = "".join(cell("th", head, one) for head, one in zip(heads, right))
    body = "".join("<tr>%s</tr>\n" % "".join(cell("td", one, is_number(one)) for one in row) for row in rows)
    return '<div class="table"><table>\n<thead><tr>%s</tr></thead>\n<tbody>\n%s</tbody>\n</table></div>' % (text, body)


def part(heading, kind, content):
    """One part of a page: its heading and a picture, a text or a table."""
    if kind == "picture":
        body = "<div><img src=%s alt=%s/></div>" % (quoteattr(content[0]), quoteattr(content[1]))
    elif kind == "text":
        body = "<pre>%s</pre>" % escape(content)
    elif kind == "table":
        body = table(*content)
    else:
        raise ValueError("a part is a picture, a text or a table, not %r" % kind)
    return "<h2>%s</h2>\n%s\n" % (escape(heading), body)


def page(title, intro, parts):
    """An HTML page: the title, the paragraphs of `intro`, and the parts (heading, kind, content).
    A picture's content is (file name, alternative text), a text's is the text, a table's is (heads, rows)."""
    text = '<!DOCTYPE html>\n<html lang="en">\n<head>\n<meta charset="utf-8"/>\n'
    text += '<meta name="viewport" content="width=device-width, initial-scale=1"/>\n'
    text += "<title>%s</title>\n<style>\n%s\n</style>\n</head>\n<body>\n<h1>%s</h1>\n" % (escape(title), STYLE, escape(title))
    text += "".join("<p>%s</p>\n" % escape(one) for one in intro)
    return text + "".join(part(*one) for one in parts) + "</body>\n</html>\n"

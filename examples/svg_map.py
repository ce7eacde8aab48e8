"""Four maps of a gas and of the wind as SVG text: 72 columns from 180 degrees west on, 44 rows and two caps."""
import itertools
import math

import numpy as np

LEVELS = np.array([1, 2, 5, 10, 20, 50, 100, 200])  # units of gas to a unit of air
COLOURS = "#ffffcc #ffeda0 #fed976 #feb24c #fd8d3c #fc4e2a #e31a1c #b10026".split()
DART, CHIMNEY = 'fill="#36506c" fill-opacity="0.45"', 'fill="#0a7d4b"'


def cells(gas, air):
    """The columns with gas, in degrees. Which level a column reaches is found in whole numbers."""
    level = (gas >= LEVELS[:, None] * air).sum(axis=0)
    bands = [level[[0] * 72], *level[1:-1].reshape(44, 72), level[[-1] * 72]]  # a cap is a band of the map
    paths, edges = [""] * (len(LEVELS) + 1), [-90, *range(-88, 89, 4), 90]
    for south, north, band in zip(edges, edges[1:], bands):
        for column, one in enumerate(band):
            paths[one] += "M%d %dh5v%dh-5z" % (5 * column - 180, south, north - south)
    return "".join('<path fill="%s" d="%s"/>\n' % pair for pair in zip(COLOURS, paths[1:]) if pair[1])


def darts(eastward, northward):
    """The wind in m/s, in degrees. A dart points downwind and is as long as the wind is strong."""
    path = ""
    for row, column in itertools.product(range(2, 44, 3), range(1, 72, 4)):
        u, v = float(eastward[row, column]), float(northward[row, column])
        x, y, speed = 5 * column - 177.5, 4 * row - 86, math.hypot(u, v)
        if speed > 1:
            p, q = 0.9 * u / speed, 0.9 * v / speed
            path += "M%.1f %.1fL%.1f %.1fL%.1f %.1fz" % (x - q, y + p, x + 0.3 * u, y + 0.3 * v, x + q, y - p)
    return '<path %s d="%s"/>\n' % (DART, path)


def label(x, y, words, anchor="middle", size=14):
    return '<text x="%d" y="%d" text-anchor="%s" font-size="%d">%s</text>\n' % (x, y, anchor, size, words)


def panel(number, title, gas, air, wind, track, chimney):
    """One of four maps with its axes: gas, wind, the way of the gas's centre so far. Its inside is in degrees."""
    left, top = 75 + 620 * (number % 2), 88 + 345 * (number // 2)
    text = '<svg x="%d" y="%d" width="540" height="270" viewBox="-180 -90 360 180">\n' % (left, top)
    text += '<g transform="scale(1 -1)">\n' + cells(gas, air) + darts(*wind)
    text += '<path d="M%.1f %.1fh5l-2.5 5z" %s/>\n' % (chimney[0] - 2.5, chimney[1] - 2.5, CHIMNEY)
    text += '<polyline points="%s" fill="none" stroke="#000"/>\n' % " ".join("%.1f,%.1f" % place for place in track)
    text += '<circle cx="%.1f" cy="%.1f" r="2.4" stroke="#000" fill="#fff"/>\n</g>\n</svg>\n' % track[-1]
    text += '<rect x="%d" y="%d" width="540" height="270" fill="none" stroke="#444"/>\n' % (left, top)
    text += label(left, top - 9, title, "start", 17) + label(left + 270, top + 307, "degrees east")
    text += '<g transform="translate(%d %d) rotate(-90)">\n' % (left - 42, top + 135)
    text += label(0, 0, "degrees north") + "</g>\n"
    text += "".join(label(left + 270 + 1.5 * x, top + 288, x) for x in range(-180, 181, 60))
    return text + "".join(label(left - 7, top + 140 - 1.5 * y, y, "end") for y in range(-90, 91, 30))


def picture(title, panels):
    """The maps with title, colour bar, and what the signs mean."""
    text = '<svg xmlns="http://www.w3.org/2000/svg" viewBox="0 0 1270 850" width="1270" height="850" role="img" '
    text += 'font-family="Helvetica, Arial, \'DejaVu Sans\', sans-serif">\n<title>%s</title>\n' % title
    text += '<rect width="1270" height="850" fill="#fff"/>\n' + label(75, 40, title, "start", 24) + "".join(panels)
    for left, colour, level in zip(range(75, 540, 58), COLOURS, LEVELS):
        text += '<rect x="%d" y="776" width="58" height="16" fill="%s" stroke="#444"/>\n' % (left, colour)
        text += label(left, 810, level)
    text += label(75, 834, "units of gas to a unit of air in the whole column; white is below 1", "start")
    text += '<path d="M686 784h26" stroke="#000"/>\n<circle cx="712" cy="784" r="4" stroke="#000" fill="#fff"/>\n'
    text += label(724, 789, "the gas's centre and its way", "start")
    text += '<path d="M942 789h8l-4 -9z" %s/>\n' % CHIMNEY + label(956, 789, "chimney", "start")
    text += '<path d="M1038 780v8l28 -4z" %s/>\n' % DART + label(1074, 789, "wind, middle layer", "start")
    return text + "</svg>\n"

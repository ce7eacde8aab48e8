//! The picture of the hill: globes with the grid's cells, and the hill along its path.

use crate::hill::{self, Run, COLUMN, DRAWN, RADIUS, STEPS};
use crate::sphere::{self, CELLS, R, W};
use crate::svg::{Anchor, Chart, Point, Svg, SMALL, TITLE, WORDS};

/// The colours of 0.01 to 0.1, 0.1 to 0.2, and so on to 1; what is less than 0.01 has the globe's.
const COLOURS: [&str; 10] = [
    "#edf8b1", "#c7e9b4", "#96d5b9", "#63c3bf", "#37a8c3", "#1f86bb", "#225ea8", "#24429a",
    "#1c2c7c", "#081d58",
];
const GLOBE: &str = "#f3f3f1";
const RADIUS_DRAWN: f64 = 104.0;
const LINES: &str = "stroke=\"#777777\" stroke-width=\"0.6\" stroke-opacity=\"0.55\"";
const START: &str = "stroke=\"#8c8c8c\" stroke-width=\"2\" stroke-dasharray=\"7 4\"";
const AFTER: &str = "stroke=\"#0b5fa5\" stroke-width=\"2.6\" stroke-linejoin=\"round\"";

/// A letter with a white rim, so that it can be read on any colour.
const POLE: &str = "font-size=\"14\" font-weight=\"bold\" fill=\"#b3261e\" \
                    stroke=\"#ffffff\" stroke-width=\"3\" paint-order=\"stroke\"";

/// A globe seen from far above one place, with the hill's way upwards.
struct View {
    middle: Point,
    towards: [f64; 3],
    up: [f64; 3],
}

fn dot(a: [f64; 3], b: [f64; 3]) -> f64 {
    a[0] * b[0] + a[1] * b[1] + a[2] * b[2]
}

impl View {
    /// The view from above the place where the exact hill is after so many steps.
    fn after(steps: u32, middle: Point) -> View {
        let towards = sphere::point(hill::exact_centre(f64::from(steps)));
        let up = sphere::point(hill::exact_centre(
            f64::from(steps) + f64::from(STEPS) / 4.0,
        ));
        View {
            middle,
            towards,
            up,
        }
    }

    /// Where a place is drawn, if it is on the side that is seen.
    fn place(&self, place: (f64, f64)) -> Option<Point> {
        // The axis of the rotation, at 0 degrees east on the equator, points to the right.
        let point = sphere::point(place);
        let (x, y) = (dot(point, [1.0, 0.0, 0.0]), dot(point, self.up));
        let drawn = (
            self.middle.0 + RADIUS_DRAWN * x,
            self.middle.1 - RADIUS_DRAWN * y,
        );
        (dot(point, self.towards) > 0.0).then_some(drawn)
    }

    /// The corners of a cell in the picture, if all of them are seen.
    fn corners(&self, cell: usize) -> Option<Vec<Point>> {
        let around = |g: usize| (0..W).map(move |i| (sphere::face(i), sphere::edge(g)));
        let places: Vec<_> = match cell {
            0 => around(0).collect(),
            _ if cell == CELLS - 1 => around(R).collect(),
            _ => {
                let (g, i) = ((cell - 1) / W, (cell - 1) % W);
                let (west, east) = (sphere::face(i + W - 1), sphere::face(i));
                let (south, north) = (sphere::edge(g), sphere::edge(g + 1));
                vec![(west, south), (east, south), (east, north), (west, north)]
            }
        };
        places.into_iter().map(|place| self.place(place)).collect()
    }
}

/// The colour of a ratio, if it is at least 0.01.
fn colour(ratio: f64) -> Option<&'static str> {
    (ratio >= 0.01).then(|| COLOURS[((ratio * 10.0) as usize).min(COLOURS.len() - 1)])
}

/// Draws the seen parts of a line given by its places.
fn seen_line(svg: &mut Svg, view: &View, places: impl Iterator<Item = (f64, f64)>) {
    let points: Vec<_> = places.map(|place| view.place(place)).collect();
    for part in points.split(|point| point.is_none()) {
        let part: Vec<Point> = part.iter().flatten().copied().collect();
        if part.len() > 1 {
            svg.line(&part, LINES);
        }
    }
}

/// Meridians and parallels, each 30 degrees.
fn graticule(svg: &mut Svg, view: &View) {
    for n in 0..12 {
        let longitude = 30.0 * f64::from(n);
        let latitudes = (-44..=44).map(|n| 2.0 * f64::from(n));
        seen_line(svg, view, latitudes.map(|latitude| (longitude, latitude)));
    }
    for n in -2..=2 {
        let latitude = 30.0 * f64::from(n);
        let longitudes = (0..=120).map(|n| 3.0 * f64::from(n));
        seen_line(svg, view, longitudes.map(|longitude| (longitude, latitude)));
    }
}

/// A pole with its letter, if it is on the side that is seen or close behind its rim.
fn pole(svg: &mut Svg, view: &View, latitude: f64, letter: &str) {
    let pole = sphere::point((0.0, latitude));
    if dot(pole, view.towards) > -0.1 {
        let (x, y) = (
            view.middle.0,
            view.middle.1 - RADIUS_DRAWN * dot(pole, view.up),
        );
        svg.circle((x, y), 2.2, "fill=\"#b3261e\"");
        svg.text((x + 6.0, y - 4.0), Anchor::Start, POLE, letter);
    }
}

fn globe(svg: &mut Svg, view: &View, ratios: &[f64]) {
    svg.circle(view.middle, RADIUS_DRAWN, &format!("fill=\"{GLOBE}\""));
    for (cell, ratio) in ratios.iter().enumerate() {
        if let (Some(colour), Some(corners)) = (colour(*ratio), view.corners(cell)) {
            let style = format!("fill=\"{colour}\" stroke=\"{colour}\" stroke-width=\"0.5\"");
            svg.polygon(&corners, &style);
        }
    }
    graticule(svg, view);
    let edge = "fill=\"none\" stroke=\"#b3261e\" stroke-width=\"1.3\" stroke-dasharray=\"4 3\"";
    svg.circle(view.middle, RADIUS_DRAWN * RADIUS.sin(), edge);
    svg.circle(
        view.middle,
        RADIUS_DRAWN,
        "fill=\"none\" stroke=\"#555555\" stroke-width=\"1.2\"",
    );
    pole(svg, view, 90.0, "N");
    pole(svg, view, -90.0, "S");
}

fn latitude_words(latitude: f64) -> String {
    if latitude == 0.0 {
        return "0°".to_string();
    }
    let side = if latitude < 0.0 { "S" } else { "N" };
    format!("{:.0}° {side}", latitude.abs())
}

/// A place in words.
fn place_words((longitude, latitude): (f64, f64)) -> String {
    let north = latitude_words(latitude);
    if latitude.abs() > 89.0 {
        format!("{north}, the cap")
    } else {
        format!("{north}, {longitude:.0}° E")
    }
}

fn globes(svg: &mut Svg, run: &Run) {
    let names = ["start", "a quarter round", "half round", "once round"];
    for (n, (ratios, steps)) in run.drawn.iter().zip(DRAWN).enumerate() {
        let middle = (132.0 + 228.0 * n as f64, 242.0);
        let heading = format!("{}: step {steps}", names[n]);
        svg.text((middle.0, 110.0), Anchor::Middle, WORDS, &heading);
        globe(svg, &View::after(steps, middle), ratios);
        let (peak, cell) = hill::peak(ratios);
        svg.text(
            (middle.0, 370.0),
            Anchor::Middle,
            WORDS,
            &format!("greatest {peak:.3}"),
        );
        let place = place_words(sphere::centre(cell));
        svg.text(
            (middle.0, 387.0),
            Anchor::Middle,
            SMALL,
            &format!("at {place}"),
        );
    }
}

/// The colours with the ratios at their borders.
fn scale(svg: &mut Svg) {
    let (left, top, width) = (190.0, 416.0, 56.0);
    let colours = std::iter::once(GLOBE).chain(COLOURS);
    for (n, colour) in colours.enumerate() {
        let style = format!("fill=\"{colour}\" stroke=\"#999999\" stroke-width=\"0.5\"");
        svg.rect((left + width * n as f64, top), width, 16.0, &style);
    }
    for n in 0..=11 {
        let border = match n {
            0 => "0".to_string(),
            1 => "0.01".to_string(),
            _ => format!("{:.1}", f64::from(n - 1) / 10.0),
        };
        let x = left + width * f64::from(n);
        svg.text((x, top + 32.0), Anchor::Middle, SMALL, &border);
    }
    svg.text((left - 14.0, top + 13.0), Anchor::End, WORDS, "gas to air");
}

/// The ratios along the meridian on which the hill starts and ends, against the latitude.
fn along(chart: &Chart, ratios: &[f64]) -> Vec<Point> {
    chart.places((0..R).map(|row| {
        let cell = sphere::cell(row, COLUMN);
        (sphere::centre(cell).1, ratios[cell])
    }))
}

fn profile(svg: &mut Svg, run: &Run) {
    let chart = Chart {
        corner: (80.0, 484.0),
        size: (840.0, 210.0),
        x: (-90.0, 90.0),
        y: (0.0, 1.1),
    };
    let across: Vec<_> = (-3..=3)
        .map(|n| 30.0 * f64::from(n))
        .map(|x| (x, latitude_words(x)))
        .collect();
    let up: Vec<_> = (0..=5)
        .map(|n| f64::from(n) / 5.0)
        .map(|y| (y, format!("{y:.1}")))
        .collect();
    chart.axes(svg, &across, &up);
    chart.names(svg, "latitude, along 270° east", "gas to air");
    svg.line(&along(&chart, &run.drawn[0]), START);
    let after = along(&chart, &run.drawn[DRAWN.len() - 1]);
    svg.line(&after, AFTER);
    for point in after {
        svg.circle(point, 3.0, "fill=\"#0b5fa5\"");
    }
    profile_legend(svg);
}

fn profile_legend(svg: &mut Svg) {
    let (x, y) = (660.0, 512.0);
    let sample = |y: f64| [(x, y), (x + 34.0, y)];
    svg.line(&sample(y), START);
    svg.text(
        (x + 44.0, y + 4.5),
        Anchor::Start,
        WORDS,
        "start, and exact result",
    );
    svg.line(&sample(y + 24.0), AFTER);
    svg.circle((x + 17.0, y + 24.0), 3.0, "fill=\"#0b5fa5\"");
    svg.text(
        (x + 44.0, y + 28.5),
        Anchor::Start,
        WORDS,
        &format!("the proved library, step {STEPS}"),
    );
}

/// The picture; `numbers` are the lines under it.
pub fn draw(run: &Run, numbers: &[String]) -> String {
    let title = "Cosine hill, once round the globe over both poles";
    let more = format!(
        "4° × 5° grid, {STEPS} steps, as in Figure 5 of Lin and others (1994). \
         Every patch is a cell of the grid."
    );
    let further = "Each globe is seen from above the exact hill, which moves up the page; \
                   the dashed circle is its edge.";
    let mut svg = Svg::new(
        950,
        772 + 19 * numbers.len() as u32,
        title,
        &numbers.join(" "),
    );
    svg.text((32.0, 34.0), Anchor::Start, TITLE, title);
    svg.lines((32.0, 56.0), SMALL, &[more, further.to_string()]);
    globes(&mut svg, run);
    scale(&mut svg);
    profile(&mut svg, run);
    svg.lines((32.0, 768.0), WORDS, numbers);
    svg.finish()
}

#[cfg(test)]
mod tests {
    use super::*;

    #[test]
    fn no_coloured_cell_is_behind_the_globe() {
        let run = hill::run().unwrap();
        for (ratios, steps) in run.drawn.iter().zip(DRAWN) {
            let view = View::after(steps, (0.0, 0.0));
            for (cell, ratio) in ratios.iter().enumerate() {
                assert!(colour(*ratio).is_none() || view.corners(cell).is_some());
            }
        }
    }
}

//! Pictures as SVG text: shapes, words, and a chart with its axes.

use std::fmt::Write;

pub type Point = (f64, f64);

pub struct Svg {
    body: String,
}

/// Where a text stands to its point.
#[derive(Clone, Copy)]
pub enum Anchor {
    Start,
    Middle,
    End,
}

fn escaped(text: &str) -> String {
    text.replace('&', "&amp;")
        .replace('<', "&lt;")
        .replace('>', "&gt;")
}

fn listed(points: &[Point]) -> String {
    let one = |(x, y): &Point| format!("{x:.1},{y:.1}");
    points.iter().map(one).collect::<Vec<_>>().join(" ")
}

impl Svg {
    /// A white picture. Title and description are for readers that do not see it.
    pub fn new(width: u32, height: u32, title: &str, description: &str) -> Svg {
        let (title, description) = (escaped(title), escaped(description));
        let body = format!(
            "<svg xmlns=\"http://www.w3.org/2000/svg\" viewBox=\"0 0 {width} {height}\" \
             width=\"{width}\" height=\"{height}\" role=\"img\" \
             font-family=\"Helvetica, Arial, 'DejaVu Sans', sans-serif\">\n\
             <title>{title}</title>\n<desc>{description}</desc>\n\
             <rect width=\"{width}\" height=\"{height}\" fill=\"#ffffff\"/>\n"
        );
        Svg { body }
    }

    fn put(&mut self, shape: std::fmt::Arguments) {
        self.body.write_fmt(shape).expect("a String takes any text");
        self.body.push('\n');
    }

    /// `style` is the shape's SVG attributes, here and below.
    pub fn rect(&mut self, (x, y): Point, width: f64, height: f64, style: &str) {
        self.put(format_args!(
            "<rect x=\"{x:.1}\" y=\"{y:.1}\" width=\"{width:.1}\" height=\"{height:.1}\" {style}/>"
        ));
    }

    pub fn circle(&mut self, (x, y): Point, radius: f64, style: &str) {
        self.put(format_args!(
            "<circle cx=\"{x:.1}\" cy=\"{y:.1}\" r=\"{radius:.1}\" {style}/>"
        ));
    }

    pub fn line(&mut self, points: &[Point], style: &str) {
        let points = listed(points);
        self.put(format_args!(
            "<polyline points=\"{points}\" fill=\"none\" {style}/>"
        ));
    }

    pub fn polygon(&mut self, points: &[Point], style: &str) {
        let points = listed(points);
        self.put(format_args!("<polygon points=\"{points}\" {style}/>"));
    }

    pub fn text(&mut self, (x, y): Point, anchor: Anchor, style: &str, text: &str) {
        let anchor = match anchor {
            Anchor::Start => "start",
            Anchor::Middle => "middle",
            Anchor::End => "end",
        };
        let text = escaped(text);
        self.put(format_args!(
            "<text x=\"{x:.1}\" y=\"{y:.1}\" text-anchor=\"{anchor}\" {style}>{text}</text>"
        ));
    }

    /// Lines of text one under the other.
    pub fn lines(&mut self, (x, y): Point, style: &str, lines: &[String]) {
        for (i, line) in lines.iter().enumerate() {
            self.text((x, y + 19.0 * i as f64), Anchor::Start, style, line);
        }
    }

    pub fn finish(mut self) -> String {
        self.body.push_str("</svg>\n");
        self.body
    }
}

pub const TITLE: &str = "font-size=\"19\" font-weight=\"bold\" fill=\"#1a1a1a\"";
pub const SMALL: &str = "font-size=\"13\" fill=\"#444444\"";
pub const WORDS: &str = "font-size=\"14\" fill=\"#1a1a1a\"";
const GRID: &str = "stroke=\"#e3e3e3\" stroke-width=\"1\"";
const AXIS: &str = "stroke=\"#555555\" stroke-width=\"1.2\"";

/// A rectangle of the picture that shows a range of x and of y.
pub struct Chart {
    pub corner: Point,
    pub size: (f64, f64),
    pub x: (f64, f64),
    pub y: (f64, f64),
}

impl Chart {
    /// Where a point of the chart lies in the picture.
    pub fn at(&self, x: f64, y: f64) -> Point {
        let across = (x - self.x.0) / (self.x.1 - self.x.0);
        let up = (y - self.y.0) / (self.y.1 - self.y.0);
        (
            self.corner.0 + across * self.size.0,
            self.corner.1 + (1.0 - up) * self.size.1,
        )
    }

    pub fn places(&self, points: impl IntoIterator<Item = Point>) -> Vec<Point> {
        points.into_iter().map(|(x, y)| self.at(x, y)).collect()
    }

    /// Grid lines and numbers at the ticks, given with their text, and the frame.
    pub fn axes(&self, svg: &mut Svg, across: &[(f64, String)], up: &[(f64, String)]) {
        for (x, text) in across {
            svg.line(&[self.at(*x, self.y.0), self.at(*x, self.y.1)], GRID);
            let (px, py) = self.at(*x, self.y.0);
            svg.text((px, py + 18.0), Anchor::Middle, SMALL, text);
        }
        for (y, text) in up {
            svg.line(&[self.at(self.x.0, *y), self.at(self.x.1, *y)], GRID);
            let (px, py) = self.at(self.x.0, *y);
            svg.text((px - 8.0, py + 4.5), Anchor::End, SMALL, text);
        }
        let low = self.at(self.x.0, self.y.0);
        svg.line(
            &[
                self.at(self.x.0, self.y.1),
                low,
                self.at(self.x.1, self.y.0),
            ],
            AXIS,
        );
    }

    /// What the two axes show.
    pub fn names(&self, svg: &mut Svg, across: &str, up: &str) {
        let (left, top) = self.corner;
        let (width, height) = self.size;
        svg.text(
            (left + width / 2.0, top + height + 40.0),
            Anchor::Middle,
            WORDS,
            across,
        );
        let (x, y) = (left - 48.0, top + height / 2.0);
        let turned = format!("{WORDS} transform=\"rotate(-90 {x:.1} {y:.1})\"");
        svg.text((x, y), Anchor::Middle, &turned, up);
    }
}

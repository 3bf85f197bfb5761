//! The picture: a panel a deck, one below the other, all to one scale and with one x. Its lengths are metres; in the group of a deck a point
//! of the ship stands at x and -y, as the records have it.
use std::fmt::Display;

use crate::panels::{panels, range, Extent, Panel, Placed, Point};
use crate::table::counted;
use crate::{Placing, Plan, SeatList};

/// Of shades and shapes, so that it reads on paper in black and white too.
const STYLE: &str = "\
text { font-family: sans-serif; fill: #000 }
.floor { fill: #f0f0f0; stroke: #888; stroke-linejoin: round }
.asked, .move, .bar { fill: none; stroke: #000 }
.placed { fill: #000 }
.unplaced { fill: none; stroke: #c00000 }
.name { text-anchor: middle }
.unplaced-name { text-anchor: middle; fill: #c00000; font-weight: bold; font-style: italic }
";

pub fn svg(plan: &Plan, list: &SeatList, placing: &Placing) -> String {
    let panels = panels(plan, list, placing);
    let extents: Vec<Extent> = panels.iter().map(Panel::extent).collect();
    let (low, high) = range(extents.iter().flat_map(|e| [e.low.0, e.high.0]));
    let tallest = extents.iter().map(|e| e.high.1 - e.low.1).fold(0.0, f64::max);
    let size = (high - low).max(tallest);
    let paper = Paper::new(if size > 0.0 { size } else { 1.0 });
    let width = high - low + 2.0 * paper.units(4.0);
    let mut top = 0.0;
    let mut body = String::new();
    for (panel, extent) in panels.iter().zip(&extents) {
        body += &paper.panel(panel, (paper.units(4.0) - low, top + paper.units(8.0) + extent.high.1), extent, low);
        top += paper.units(20.0) + extent.high.1 - extent.low.1;
    }
    body += &paper.legend(plan, (paper.units(4.0), top + paper.units(2.0)));
    let (width, height) = (width.max(paper.units(84.0)), top + paper.units(6.0));
    format!(
        "<svg xmlns=\"http://www.w3.org/2000/svg\" width=\"1000\" height=\"{:.0}\" viewBox=\"0 0 {} {}\">\n<style>\n{STYLE}</style>\n\
         <rect width=\"100%\" height=\"100%\" fill=\"#fff\"/>\n{body}</svg>\n",
        1000.0 * height / width,
        paper.number(width),
        paper.number(height)
    )
}

/// How large things are drawn: a unit is a hundredth of the larger side.
struct Paper {
    unit: f64,
    decimals: usize,
}

impl Paper {
    fn new(size: f64) -> Paper {
        let unit = size / 100.0;
        Paper { unit, decimals: (3.0 - unit.log10()).ceil().max(0.0) as usize }
    }

    fn units(&self, n: f64) -> f64 {
        n * self.unit
    }

    /// A length, to a thousandth of a unit.
    fn number(&self, length: f64) -> String {
        let text = format!("{length:.*}", self.decimals);
        let text = if text.contains('.') { text.trim_end_matches('0').trim_end_matches('.') } else { &text };
        if text == "-0" { "0" } else { text }.to_string()
    }

    fn sized(&self, n: f64) -> String {
        self.number(self.units(n))
    }

    fn panel(&self, panel: &Panel, shift: Point, extent: &Extent, left: f64) -> String {
        let mut text = format!(
            "<g class=\"deck\" data-deck=\"{}\" transform=\"translate({} {})\">\n",
            escaped(panel.deck),
            self.number(shift.0),
            self.number(shift.1)
        );
        text += &self.words((left, -extent.high.1 - self.units(4.5)), 2.4, "title", &panel.title);
        for (k, polygon) in panel.polygons.iter().enumerate() {
            let points: Vec<String> = polygon.iter().map(|p| format!("{},{}", self.number(p.0), self.number(-p.1))).collect();
            let stroke = self.sized(0.15);
            text += &format!(
                "<polygon class=\"floor\" stroke-width=\"{stroke}\" points=\"{}\"><title>polygon {k}</title></polygon>\n",
                points.join(" ")
            );
        }
        panel.placed.iter().for_each(|seat| text += &self.placed(seat));
        panel.unplaced.iter().for_each(|seat| text += &self.unplaced(seat.0, seat.1));
        text += &self.scale_bar((left, -extent.low.1 + self.units(6.0)));
        text + "</g>\n"
    }

    fn placed(&self, seat: &Placed) -> String {
        let (asked, stands) = (at(seat.asked), at(seat.stands));
        let mut text = self.ring(&of_seat(seat.name), asked);
        if seat.asked != seat.stands {
            let ((x1, y1), (x2, y2)) = (asked, stands);
            let stroke = self.sized(0.12);
            text += &format!("<line class=\"move\" x1=\"{x1}\" y1=\"{y1}\" x2=\"{x2}\" y2=\"{y2}\" stroke-width=\"{stroke}\"/>\n");
        }
        text += &self.dot(&of_seat(seat.name), stands);
        // The name is not written over the line.
        let down = if seat.asked.1 < seat.stands.1 { -1.0 } else { 1.8 };
        text + &self.words(self.beside(seat.stands, down), 1.0, "name", seat.name)
    }

    fn unplaced(&self, name: &str, asked: (f32, f32)) -> String {
        self.cross(&of_seat(name), at(asked)) + &self.words(self.beside(asked, 1.8), 1.0, "unplaced-name", name)
    }

    /// The mark of a place that was asked.
    fn ring<N: Display>(&self, of: &str, (x, y): (N, N)) -> String {
        let (r, stroke) = (self.sized(0.6), self.sized(0.12));
        format!("<circle class=\"asked\"{of} cx=\"{x}\" cy=\"{y}\" r=\"{r}\" stroke-width=\"{stroke}\"/>\n")
    }

    /// The mark of a place where a seat stands.
    fn dot<N: Display>(&self, of: &str, (x, y): (N, N)) -> String {
        format!("<circle class=\"placed\"{of} cx=\"{x}\" cy=\"{y}\" r=\"{}\"/>\n", self.sized(0.35))
    }

    /// The mark of a seat that is not placed.
    fn cross<N: Display>(&self, of: &str, (x, y): (N, N)) -> String {
        let (a, b, stroke) = (self.sized(-0.6), self.sized(0.6), self.sized(0.25));
        let lines = format!("M{a} {a}L{b} {b}M{a} {b}L{b} {a}");
        format!("<path class=\"unplaced\"{of} transform=\"translate({x} {y})\" stroke-width=\"{stroke}\" d=\"{lines}\"/>\n")
    }

    /// Where a seat's name is written: so many units below it.
    fn beside(&self, p: (f32, f32), down: f64) -> Point {
        (f64::from(p.0), self.units(down) - f64::from(p.1))
    }

    fn words(&self, at: Point, size: f64, class: &str, words: &str) -> String {
        let (x, y) = (self.number(at.0), self.number(at.1));
        format!("<text class=\"{class}\" x=\"{x}\" y=\"{y}\" font-size=\"{}\">{}</text>\n", self.sized(size), escaped(words))
    }

    /// A bar of the longest round length of at most a fifth of the picture.
    fn scale_bar(&self, left: Point) -> String {
        let length = round_length(self.units(20.0));
        let (x, y) = (self.number(left.0), self.number(left.1));
        let (end, tick) = (self.number(left.0 + length), self.sized(0.6));
        let bar = format!(
            "<path class=\"bar\" data-metres=\"{length}\" stroke-width=\"{}\" d=\"M{x} {y}m0 -{tick}v{tick}H{end}v-{tick}\"/>\n",
            self.sized(0.2)
        );
        bar + &self.words((left.0 + length + self.units(1.0), left.1), 1.6, "scale", &format!("{length} m"))
    }

    fn legend(&self, plan: &Plan, left: Point) -> String {
        let mark = |x: f64| (self.number(left.0 + self.units(x)), self.number(left.1 - self.units(0.5)));
        let say = |x: f64, words: &str| self.words((left.0 + self.units(x), left.1), 1.6, "legend", words);
        let marks = [self.ring("", mark(1.0)), self.dot("", mark(16.0)), self.cross("", mark(31.0))].concat();
        let rule = format!("reach {} m, {}", plan.reach, counted(plan.steps, "step"));
        let words = [say(2.5, "asked"), say(17.5, "stands"), say(32.5, "no deck within reach"), say(56.0, &rule)].concat();
        format!("<g class=\"legend\">\n{marks}{words}</g>\n")
    }
}

fn of_seat(name: &str) -> String {
    format!(" data-seat=\"{}\"", escaped(name))
}

/// A point as the picture has it: -y, and 0 for -0.
fn at(p: (f32, f32)) -> (f32, f32) {
    (p.0 + 0.0, 0.0 - p.1)
}

/// 1, 2 or 5 times a power of ten.
fn round_length(most: f64) -> f64 {
    let power = most.log10().floor() as i32;
    let of = |digit: u32| format!("{digit}e{power}").parse::<f64>().unwrap_or(1.0);
    [5, 2, 1].into_iter().map(of).find(|&length| length <= most).unwrap_or(of(1))
}

fn escaped(text: &str) -> String {
    text.chars()
        .map(|c| match c {
            '&' => "&amp;".to_string(),
            '<' => "&lt;".to_string(),
            '>' => "&gt;".to_string(),
            '"' => "&quot;".to_string(),
            c => c.to_string(),
        })
        .collect()
}

#[cfg(test)]
mod tests {
    use super::*;

    #[test]
    fn round_lengths() {
        assert_eq!(
            [0.3, 0.5, 1.0, 4.8, 5.0, 9.9, 19.0, 200000.0, 0.0021].map(round_length),
            [0.2, 0.5, 1.0, 2.0, 5.0, 5.0, 10.0, 200000.0, 0.002]
        );
    }

    #[test]
    fn numbers_are_short() {
        let paper = Paper::new(25.0);
        assert_eq!([1.0, 0.25, -0.00001, 1.23456789].map(|n| paper.number(n)), ["1", "0.25", "0", "1.2346"]);
        assert_eq!(Paper::new(1e6).number(1234567.8), "1234568");
    }
}

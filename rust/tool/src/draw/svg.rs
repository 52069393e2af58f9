//! The picture as SVG.
//!
//! What is drawn can be read back by these ids:
//!
//! - `reports`: up to 2,000 of them a circle each, its centre at tick and position. More are one path in
//!   units of a column and a position, where each run of positions that a column reports is a `v` of its
//!   length.
//! - `refused`, `restarts`: a path for each column that has any, which starts in the middle of that column.
//! - `rank-N`, `status-N`, `reported-N`: a path in units of a column, where each run of columns that have the
//!   rank, or the bit in the drive or in the log, is an `h` of its length.
//! - `unknown`: over the columns in which the drive's status is not known at some time, which are the first.
//! - `damper`, `log`: a line of steps or, where a column has several positions, the outline of a surface from
//!   their least, to the right, to their greatest, to the left.
//!
//! The size is bounded for any input. A column has at most these bytes: 772 of reports (every second
//! position, six bytes each), 90 of the outlines of damper, log and the space between (two edges of 15),
//! 15 of the distance, 57 of nineteen rows (every second column, six bytes each), 218 of a refused mark,
//! 123 of a restart. That is 1275, with 768 columns 979,200, and less than 12,000 are there once.

use crate::count::digits;
use crate::draw::caption::{self, When};
use crate::draw::trace::{Column, Span, Trace, KEPT_REFUSALS};
use crate::reading::STATUS_BITS;
use damper::Rank;
use std::fmt::{self, Write};

/// Columns at most.
pub const COLUMNS: usize = 768;

/// The whole picture, and the part of its width where time goes.
const WIDTH: f64 = 1200.0;
pub const LEFT: f64 = 140.0;
pub const SPAN: f64 = 980.0;
const RIGHT: f64 = LEFT + SPAN;

/// The chart, and the room of a position in it.
const TOP: f64 = 136.0;
pub const UNIT: f64 = 1.4;
pub const BOTTOM: f64 = TOP + 255.0 * UNIT;

/// The distance below it.
const DISTANCE_TOP: f64 = BOTTOM + 22.0;
const DISTANCE_HEIGHT: f64 = 50.0;
const DISTANCE_BOTTOM: f64 = DISTANCE_TOP + DISTANCE_HEIGHT;

/// The bands, a row for each source and each bit.
const ROW: f64 = 15.0;
const RANKS_TOP: f64 = DISTANCE_BOTTOM + 34.0;
const RANKS_BOTTOM: f64 = RANKS_TOP + 7.0 * ROW;
const STATUS_TOP: f64 = RANKS_BOTTOM + 32.0;
const STATUS_BOTTOM: f64 = STATUS_TOP + 6.0 * ROW;

/// The remarks below them, a line each.
const REMARKS_TOP: f64 = STATUS_BOTTOM + 46.0;
const REMARK: f64 = 18.0;

/// Blue and vermilion are told apart by readers who see few colours, and without any: the damper is broad and
/// light, the log thin and dark.
const DAMPER: &str = "#4A9BD0";
const DAMPER_LIGHT: &str = "#8CC1E3";
const LOG: &str = "#B03A00";
const REPORT: &str = "#7A2600";
const BETWEEN: &str = "#F4E08C";
const INK: &str = "#1A1A1A";
const FAINT: &str = "#5A5A5A";
const GRID: &str = "#DADADA";
const UNKNOWN: &str = "#B0B0B0";

/// Marks of one kind that have room to be broad, and to tell several events each.
const FEW: usize = 100;

/// Marks of refused events, behind a move.
const TRIANGLE: &str = "m-5 0h10l-5 9z";
const BAR: &str = "m-.5 0h1v9h-1z";

pub fn draw(trace: &Trace, heading: &str) -> String {
    let (columns, stretch) = trace.columns(COLUMNS);
    let thin = |span: Option<Span>| span.is_none_or(|span| span.least == span.greatest);
    let lines = columns.iter().all(|column| thin(column.damper) && thin(column.log));
    let mut sheet = Sheet { trace, columns, stretch, lines, out: String::new() };
    let shared = trace.each_report().is_none().then_some("of one position in one column");
    let remarks = caption::remarks(trace, stretch, shared);
    sheet.opening(heading, REMARKS_TOP + REMARK * remarks.len() as f64 - 8.0);
    sheet.legend();
    sheet.unknown();
    sheet.grid();
    sheet.restarts();
    sheet.curves();
    sheet.reports();
    sheet.refused();
    sheet.distance();
    sheet.ranks();
    sheet.status();
    for (remark, line) in remarks.iter().zip(0..) {
        sheet.text(24.0, REMARKS_TOP + REMARK * f64::from(line), "start", remark);
    }
    sheet.put(format_args!("</svg>\n"));
    sheet.out
}

struct Sheet<'t> {
    trace: &'t Trace,
    columns: Vec<Column>,
    stretch: u64,
    /// Every column has one position of the damper and one of the log.
    lines: bool,
    out: String,
}

impl Sheet<'_> {
    fn put(&mut self, text: fmt::Arguments) {
        let _ = self.out.write_fmt(text);
    }

    /// A line of text, anchored at its start, middle or end.
    fn text(&mut self, x: f64, y: f64, anchor: &str, text: &str) {
        let (x, y, text) = (Number(x), Number(y), escaped(text));
        let anchor = if anchor == "start" { String::new() } else { format!(r#" text-anchor="{anchor}""#) };
        self.put(format_args!("<text x=\"{x}\" y=\"{y}\"{anchor}>{text}</text>\n"));
    }

    fn bold(&mut self, x: f64, y: f64, text: &str) {
        let (x, y, text) = (Number(x), Number(y), escaped(text));
        self.put(format_args!("<text x=\"{x}\" y=\"{y}\" font-weight=\"bold\">{text}</text>\n"));
    }

    /// The left edge of a column.
    fn x(&self, column: usize) -> f64 {
        LEFT + SPAN * column as f64 / self.columns.len() as f64
    }

    fn middle(&self, column: usize) -> f64 {
        LEFT + SPAN * (column as f64 + 0.5) / self.columns.len() as f64
    }

    fn x_of_tick(&self, tick: u64) -> f64 {
        LEFT + SPAN * tick as f64 / self.stretch as f64 / self.columns.len() as f64
    }

    fn opening(&mut self, heading: &str, height: f64) {
        let (width, height) = (Number(WIDTH), Number(height));
        let (counts, distance) = (caption::counts(self.trace), caption::distance(self.trace));
        let title = escaped(heading);
        self.put(format_args!(
            "<svg xmlns=\"http://www.w3.org/2000/svg\" viewBox=\"0 0 {width} {height}\" role=\"img\" \
             aria-labelledby=\"title desc\" font-family=\"Helvetica, Arial, sans-serif\" font-size=\"13\" \
             fill=\"{INK}\">\n\
             <title id=\"title\">{title}</title>\n\
             <desc id=\"desc\">{counts}; {distance}. The damper's position and, over it, the position last \
             reported; below them the distance between the two, the ruling source and the bits of the \
             status, along the ticks.</desc>\n\
             <rect width=\"{width}\" height=\"{height}\" fill=\"#FFFFFF\"/>\n",
        ));
        self.put(format_args!(
            "<text x=\"24\" y=\"30\" font-size=\"20\" font-weight=\"bold\">{title}</text>\n\
             <text x=\"24\" y=\"53\" font-size=\"15\">{counts}; {distance}</text>\n",
        ));
    }

    /// How damper and log look.
    fn styles(&self) -> (String, String) {
        match self.lines {
            true => (
                format!("fill=\"none\" stroke=\"{DAMPER}\" stroke-width=\"4.5\""),
                format!("fill=\"none\" stroke=\"{LOG}\" stroke-width=\"1.8\" stroke-dasharray=\"6 2.5\""),
            ),
            false => (
                format!("fill=\"{DAMPER_LIGHT}\" stroke=\"{DAMPER}\" stroke-width=\"3.6\""),
                format!(
                    "fill=\"{LOG}\" fill-opacity=\"0.15\" stroke=\"{LOG}\" stroke-width=\"1.2\" \
                     stroke-dasharray=\"4 5\""
                ),
            ),
        }
    }

    fn legend(&mut self) {
        let (damper, log) = self.styles();
        let sample = if self.lines { "73h30" } else { "73h12v5h18v-10h-18v5z" };
        let report = match self.radius() {
            Some(radius) => format!("<circle cx=\"467\" cy=\"73\" r=\"{radius}\" fill=\"{REPORT}\"/>"),
            None => {
                let width = Number(SPAN / self.columns.len() as f64);
                format!("<path d=\"M467 68v10\" stroke=\"{REPORT}\" stroke-width=\"{width}\"/>")
            }
        };
        let (_, refused) = self.refusals();
        let (restarts, restart) = self.restarted();
        let line = if restarts.len() <= FEW { "86v16" } else { "91v7" };
        self.put(format_args!(
            "<g id=\"legend\">\n\
             <path {damper} d=\"M24 {sample}\"/>\n\
             <path {log} d=\"M196 {sample}\"/>\n\
             {report}\n\
             <path d=\"M720 67h30v12h-30z\" fill=\"{BETWEEN}\"/>\n\
             <path d=\"M39 90{refused}\"/>\n\
             <path d=\"M211 {line}\" {restart}/>\n\
             <path d=\"M452 94h30\" stroke=\"{DAMPER_LIGHT}\" stroke-width=\"11\"/>\n\
             <path d=\"M720 94h30\" stroke=\"{LOG}\" stroke-width=\"3.5\"/>\n",
        ));
        let mut texts = vec![
            (62.0, 77.5, "the damper"),
            (234.0, 77.5, "the log: the last report, held"),
            (490.0, 77.5, "a report"),
            (758.0, 77.5, "between damper and log"),
            (62.0, 98.5, "refused events"),
            (234.0, 98.5, "restart"),
            (490.0, 98.5, "ruling source, status of the drive"),
            (758.0, 98.5, "status in the log"),
        ];
        if self.unknown_columns() > 0 {
            self.put(format_args!("<path d=\"M930 88h30v12h-30z\" fill=\"url(#hatch)\"/>\n"));
            texts.push((968.0, 98.5, "status of the drive not known"));
        }
        self.put(format_args!("</g>\n"));
        for (x, y, text) in texts {
            self.text(x, y, "start", text);
        }
    }

    fn unknown_columns(&self) -> usize {
        self.columns.iter().take_while(|column| column.unknown).count()
    }

    /// Behind the bits, where no bit may be set or any.
    fn unknown(&mut self) {
        let end = self.unknown_columns();
        if end == 0 {
            return;
        }
        let (x, y) = (Number(LEFT), Number(STATUS_TOP));
        let (width, height) = (Number(self.x(end) - LEFT), Number(STATUS_BOTTOM - STATUS_TOP));
        self.put(format_args!(
            "<pattern id=\"hatch\" width=\"5\" height=\"5\" patternUnits=\"userSpaceOnUse\">\
             <path d=\"M-1 1l2 -2M0 5l5 -5M4 6l2 -2\" stroke=\"{UNKNOWN}\"/></pattern>\n\
             <rect id=\"unknown\" x=\"{x}\" y=\"{y}\" width=\"{width}\" height=\"{height}\" \
             fill=\"url(#hatch)\"/>\n",
        ));
    }

    /// Axes, and lines of the same time through everything.
    fn grid(&mut self) {
        let step = caption::round_step(self.trace.ticks, 12);
        let labels: Vec<(u64, f64)> =
            (0..=self.trace.ticks / step).map(|n| (n * step, self.x_of_tick(n * step))).collect();
        self.put(format_args!("<path id=\"grid\" fill=\"none\" stroke=\"{GRID}\" d=\""));
        for (_, x) in &labels {
            let x = Number(*x);
            for (top, bottom) in [
                (TOP, BOTTOM),
                (DISTANCE_TOP, DISTANCE_BOTTOM),
                (RANKS_TOP, RANKS_BOTTOM),
                (STATUS_TOP, STATUS_BOTTOM),
            ] {
                let (top, bottom) = (Number(top), Number(bottom));
                self.put(format_args!("M{x} {top}V{bottom}"));
            }
        }
        for quarter in 0..=4 {
            let y = Number(BOTTOM - 255.0 * UNIT * f64::from(quarter) / 4.0);
            self.put(format_args!("M{} {y}h{}", Number(LEFT), Number(SPAN)));
        }
        for (top, rows) in [(RANKS_TOP, 7), (STATUS_TOP, 6)] {
            for row in 0..=rows {
                let y = Number(top + ROW * f64::from(row));
                self.put(format_args!("M{} {y}h{}", Number(LEFT), Number(SPAN)));
            }
        }
        self.put(format_args!("\"/>\n<g id=\"axes\" font-size=\"12\" fill=\"{FAINT}\">\n"));
        self.put(format_args!("<path fill=\"none\" stroke=\"{FAINT}\" d=\""));
        let (left, right) = (Number(LEFT), Number(RIGHT));
        for bottom in [BOTTOM, DISTANCE_BOTTOM, STATUS_BOTTOM] {
            self.put(format_args!("M{left} {}H{right}", Number(bottom)));
        }
        for (_, x) in &labels {
            self.put(format_args!("M{} {}v5", Number(*x), Number(STATUS_BOTTOM)));
        }
        for position in [0, 50, 100, 150, 200, 255] {
            self.put(format_args!("M{right} {}h5", Number(y(position))));
        }
        self.put(format_args!("M{left} {t}V{b}M{right} {t}V{b}\"/>\n", t = Number(TOP), b = Number(BOTTOM)));
        for (tick, x) in labels {
            self.text(x, STATUS_BOTTOM + 19.0, "middle", &digits(tick));
        }
        self.text(LEFT - 14.0, STATUS_BOTTOM + 19.0, "end", "ticks");
        for quarter in 0..=4 {
            let y = BOTTOM - 255.0 * UNIT * f64::from(quarter) / 4.0;
            let end = ["closed, ", "", "", "", "open, "][quarter as usize];
            self.text(LEFT - 9.0, y + 4.0, "end", &format!("{end}{} %", 25 * quarter));
        }
        for position in [0, 50, 100, 150, 200, 255] {
            self.text(RIGHT + 9.0, y(position) + 4.0, "start", &position.to_string());
        }
        self.text(RIGHT + 9.0, TOP - 16.0, "start", "position");
        self.put(format_args!("</g>\n"));
    }

    /// A dashed line from above the chart through the bands or, where there are many, only above it.
    fn restarts(&mut self) {
        let (marked, style) = self.restarted();
        let bottom = if marked.len() <= FEW { STATUS_BOTTOM } else { TOP - 1.0 };
        let (top, bottom) = (Number(TOP - 8.0), Number(bottom));
        self.put(format_args!("<g id=\"restarts\" {style}>\n"));
        for at in marked {
            let x = Number(self.middle(at));
            let title = escaped(&caption::restarted(&self.columns[at], self.when(at)));
            self.put(format_args!("<path d=\"M{x} {top}V{bottom}\"><title>{title}</title></path>\n"));
        }
        self.put(format_args!("</g>\n"));
    }

    /// Columns with restarts, and how a mark looks.
    fn restarted(&self) -> (Vec<usize>, String) {
        let marked = self.marked(&|column| column.restarts > 0);
        let style = match marked.len() <= FEW {
            true => "stroke-width=\"1.4\" stroke-dasharray=\"4 3\"",
            false => "stroke-width=\"0.9\"",
        };
        (marked, format!("fill=\"none\" stroke=\"{FAINT}\" {style}"))
    }

    /// Columns with refused events, and how a mark looks.
    fn refusals(&self) -> (Vec<usize>, &'static str) {
        let marked = self.marked(&|column| column.refused > 0);
        let shape = if marked.len() <= FEW { TRIANGLE } else { BAR };
        (marked, shape)
    }

    /// The time of a column's events.
    fn when(&self, column: usize) -> When {
        When { start: column as u64 * self.stretch, stretch: self.stretch }
    }

    fn marked(&self, mark: &dyn Fn(&Column) -> bool) -> Vec<usize> {
        (0..self.columns.len()).filter(|at| mark(&self.columns[*at])).collect()
    }

    fn curves(&mut self) {
        let both = |column: &Column| column.damper.and(column.log).and(Span::both(column.damper, column.log));
        self.curve("between", &both, true, &format!("fill=\"{BETWEEN}\""));
        let (damper, log) = self.styles();
        self.curve("damper", &|column| column.damper, !self.lines, &damper);
        self.curve("log", &|column| column.log, !self.lines, &log);
    }

    /// Steps from the first column that has a span: the least positions, or the outline around both edges.
    fn curve(&mut self, id: &str, span: &dyn Fn(&Column) -> Option<Span>, outline: bool, style: &str) {
        let spans: Vec<(usize, Span)> =
            self.columns.iter().enumerate().filter_map(|(i, column)| Some((i, span(column)?))).collect();
        let Some(((first, start), (last, _))) = spans.first().copied().zip(spans.last().copied()) else {
            return;
        };
        self.put(format_args!(
            "<path id=\"{id}\" {style} d=\"M{} {}",
            Number(self.x(first)),
            Number(y(start.least))
        ));
        let mut at = start.least;
        for (i, Span { least, .. }) in &spans {
            if *least != at {
                self.put(format_args!("H{}V{}", Number(self.x(*i)), Number(y(*least))));
                at = *least;
            }
        }
        self.put(format_args!("H{}", Number(self.x(last + 1))));
        if outline {
            for (i, Span { greatest, .. }) in spans.iter().rev() {
                if *greatest != at {
                    self.put(format_args!("H{}V{}", Number(self.x(i + 1)), Number(y(*greatest))));
                    at = *greatest;
                }
            }
            self.put(format_args!("H{}z", Number(self.x(first))));
        }
        self.put(format_args!("\"/>\n"));
    }

    /// Of the circles, while there are not too many reports.
    fn radius(&self) -> Option<f64> {
        Some(match self.trace.each_report()?.len() {
            0..=150 => 3.2,
            151..=600 => 2.4,
            _ => 1.8,
        })
    }

    fn reports(&mut self) {
        let (Some(reports), Some(radius)) = (self.trace.each_report(), self.radius()) else {
            return self.many_reports();
        };
        self.put(format_args!("<g id=\"reports\" fill=\"{REPORT}\">\n"));
        for report in reports {
            let (x, y) = (Number(self.x_of_tick(report.tick)), Number(y(report.position)));
            let title = escaped(&caption::report(report));
            self.put(format_args!(
                "<circle cx=\"{x}\" cy=\"{y}\" r=\"{radius}\"><title>{title}</title></circle>\n"
            ));
        }
        self.put(format_args!("</g>\n"));
    }

    /// A mark for each position of each column.
    fn many_reports(&mut self) {
        let x = Number(LEFT + SPAN / self.columns.len() as f64 / 2.0);
        let y = Number(BOTTOM + UNIT / 2.0);
        let scale = Scale(SPAN / self.columns.len() as f64);
        self.put(format_args!(
            "<path id=\"reports\" fill=\"none\" stroke=\"{REPORT}\" \
             transform=\"translate({x} {y}) scale({scale} -{UNIT})\" d=\"",
        ));
        for at in 0..self.columns.len() {
            let mut end = None;
            for Span { least, greatest } in self.columns[at].reports.runs() {
                let height = u16::from(greatest - least) + 1;
                match end {
                    None => self.put(format_args!("M{at} {least}v{height}")),
                    Some(end) => self.put(format_args!("m0 {}v{height}", u16::from(least) - end)),
                }
                end = Some(u16::from(greatest) + 1);
            }
        }
        self.put(format_args!("\"/>\n"));
    }

    /// A triangle above the chart, or a bar as narrow as a column where there are many.
    fn refused(&mut self) {
        let (marked, shape) = self.refusals();
        let most = if marked.len() <= FEW { KEPT_REFUSALS } else { 1 };
        self.put(format_args!("<g id=\"refused\">\n"));
        let top = Number(TOP - 19.0);
        for at in marked {
            let x = Number(self.middle(at));
            let title = escaped(&caption::refused(&self.columns[at], self.when(at), most));
            self.put(format_args!("<path d=\"M{x} {top}{shape}\"><title>{title}</title></path>\n"));
        }
        self.put(format_args!("</g>\n"));
    }

    /// The greatest distance of each column, under a scale of its own.
    fn distance(&mut self) {
        self.bold(24.0, DISTANCE_TOP + 9.0, "distance");
        self.text(24.0, DISTANCE_TOP + 25.0, "start", "in positions");
        let greatest = self.trace.greatest.map_or(0, |greatest| greatest.positions);
        let (step, most) = distance_scale(greatest);
        let height = |distance: u8| DISTANCE_BOTTOM - DISTANCE_HEIGHT * f64::from(distance) / f64::from(most);
        self.put(format_args!("<g font-size=\"11\" fill=\"{FAINT}\">\n"));
        for label in (0..=most).step_by(step.into()) {
            let y = height(label);
            self.put(format_args!(
                "<path fill=\"none\" stroke=\"{GRID}\" d=\"M{} {}h{}\"/>\n",
                Number(LEFT),
                Number(y),
                Number(SPAN)
            ));
            self.text(RIGHT + 9.0, y + 4.0, "start", &label.to_string());
        }
        self.put(format_args!("</g>\n"));
        let Some(first) = self.columns.iter().position(|column| column.distance.is_some()) else { return };
        let bottom = Number(DISTANCE_BOTTOM);
        self.put(format_args!(
            "<path id=\"distance\" fill=\"{BETWEEN}\" stroke=\"{INK}\" stroke-width=\"0.9\" d=\"M{} {bottom}",
            Number(self.x(first)),
        ));
        let mut at = 0;
        for i in first..self.columns.len() {
            let distance = self.columns[i].distance.unwrap_or(0);
            if distance != at {
                self.put(format_args!("H{}V{}", Number(self.x(i)), Number(height(distance))));
                at = distance;
            }
        }
        self.put(format_args!("H{}V{bottom}z\"/>\n", Number(RIGHT)));
    }

    fn ranks(&mut self) {
        self.bold(24.0, RANKS_TOP - 8.0, "ruling source");
        for (row, rank) in Rank::ALL.into_iter().rev().enumerate() {
            let middle = RANKS_TOP + ROW * (row as f64 + 0.5);
            self.text(LEFT - 9.0, middle + 4.0, "end", rank.name());
            let lit = |column: &Column| column.ranks >> rank.number() & 1 == 1;
            self.row(&format!("rank-{}", rank.number()), middle, DAMPER_LIGHT, 11.0, &lit);
        }
    }

    fn status(&mut self) {
        self.bold(24.0, STATUS_TOP - 8.0, "status");
        for (bit, name) in STATUS_BITS.into_iter().enumerate() {
            let middle = STATUS_TOP + ROW * (bit as f64 + 0.5);
            self.text(LEFT - 9.0, middle + 4.0, "end", name);
            let lit = |column: &Column| column.status >> bit & 1 == 1;
            self.row(&format!("status-{bit}"), middle, DAMPER_LIGHT, 11.0, &lit);
            let lit = |column: &Column| column.reported >> bit & 1 == 1;
            self.row(&format!("reported-{bit}"), middle, LOG, 3.5, &lit);
        }
    }

    /// A bar over each run of lit columns.
    fn row(&mut self, id: &str, y: f64, colour: &str, width: f64, lit: &dyn Fn(&Column) -> bool) {
        let lit: Vec<bool> = self.columns.iter().map(lit).collect();
        if !lit.contains(&true) {
            return;
        }
        let (x, y, scale) = (Number(LEFT), Number(y), Scale(SPAN / lit.len() as f64));
        self.put(format_args!(
            "<path id=\"{id}\" fill=\"none\" stroke=\"{colour}\" stroke-width=\"{width}\" \
             transform=\"translate({x} {y}) scale({scale} 1)\" d=\"M0 0",
        ));
        let mut at = 0;
        let mut moved = 0;
        for run in lit.chunk_by(|a, b| a == b) {
            if run[0] {
                let gap = at - moved;
                if gap > 0 {
                    self.put(format_args!("m{gap} 0"));
                }
                self.put(format_args!("h{}", run.len()));
                moved = at + run.len();
            }
            at += run.len();
        }
        self.put(format_args!("\"/>\n"));
    }
}

fn y(position: u8) -> f64 {
    BOTTOM - UNIT * f64::from(position)
}

/// The step between labels and the end of a scale that a distance fits.
fn distance_scale(greatest: u8) -> (u8, u8) {
    match [1, 2, 5, 10, 20, 50, 100].into_iter().find(|step| greatest <= 2 * step) {
        Some(step) => (step, 2 * step),
        None => (100, 255),
    }
}

/// Two decimals at most.
struct Number(f64);

impl fmt::Display for Number {
    fn fmt(&self, f: &mut fmt::Formatter) -> fmt::Result {
        let text = format!("{:.2}", self.0);
        f.write_str(text.trim_end_matches('0').trim_end_matches('.'))
    }
}

/// A factor of up to 768 columns.
struct Scale(f64);

impl fmt::Display for Scale {
    fn fmt(&self, f: &mut fmt::Formatter) -> fmt::Result {
        let text = format!("{:.5}", self.0);
        f.write_str(text.trim_end_matches('0').trim_end_matches('.'))
    }
}

/// Any text as XML; what XML has no character for is replaced.
fn escaped(text: &str) -> String {
    let mut out = String::new();
    for character in text.chars() {
        match character {
            '&' => out += "&amp;",
            '<' => out += "&lt;",
            '>' => out += "&gt;",
            '"' => out += "&quot;",
            '\u{FFFE}' | '\u{FFFF}' => out.push('\u{FFFD}'),
            character if character.is_control() => out.push('\u{FFFD}'),
            character => out.push(character),
        }
    }
    out
}

#[cfg(test)]
mod tests {
    use super::*;

    #[test]
    fn numbers() {
        let numbers = [0.0, 1.0, 0.5, 1.25, 99.999, 0.333333, 100.0, -2.5];
        let texts = ["0", "1", "0.5", "1.25", "100", "0.33", "100", "-2.5"];
        assert_eq!(numbers.map(|number| Number(number).to_string()), texts);
        assert_eq!(Scale(980.0 / 768.0).to_string(), "1.27604");
    }

    #[test]
    fn no_text_breaks_the_xml() {
        assert_eq!(
            escaped("a<b>&\"c\"\u{1b}\n\u{FFFF}é"),
            "a&lt;b&gt;&amp;&quot;c&quot;\u{FFFD}\u{FFFD}\u{FFFD}é"
        );
    }

    #[test]
    fn each_distance_fits_its_scale() {
        for greatest in 0..=255 {
            let (step, most) = distance_scale(greatest);
            assert!(greatest <= most && most / step == 2);
        }
    }
}

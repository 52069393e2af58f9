//! The picture in characters.

use crate::count::digits;
use crate::draw::caption;
use crate::draw::trace::{Column, Span, Trace};
use crate::reading::STATUS_BITS;
use damper::Rank;

/// Rows of the chart, the lowest for 0 and the highest for 255.
const ROWS: u8 = 17;

/// Characters before the chart: the longest name and a blank.
const MARGIN: usize = 16;

/// Characters that a column is wide at most, where there are few ticks.
const BROADEST: usize = 10;

pub fn draw(trace: &Trace, heading: &str, width: usize) -> String {
    let (columns, stretch) = trace.columns(width - MARGIN - 2);
    let broad = ((width - MARGIN - 2) / columns.len()).min(BROADEST);
    let mut sheet = Sheet { columns, broad, out: String::new() };
    sheet.wrapped(&printable(heading), width);
    sheet.wrapped(&format!("{}; {}", caption::counts(trace), caption::distance(trace)), width);
    sheet.out.push('\n');
    sheet.row("refused", &|column, first| if first && column.refused > 0 { '!' } else { ' ' });
    sheet.row("restart", &|column, first| if first && column.restarts > 0 { '^' } else { ' ' });
    sheet.edge();
    for row in (0..ROWS).rev() {
        let name = if row % 4 == 0 { format!("{} %", 25 * (row / 4)) } else { String::new() };
        sheet.row(&name, &|column, first| chart(column, first, row));
    }
    sheet.edge();
    sheet.row("distance", &|column, _| distance(column));
    sheet.edge();
    for rank in Rank::ALL.into_iter().rev() {
        sheet.row(rank.name(), &|column, _| if column.ranks >> rank.number() & 1 == 1 { '#' } else { ' ' });
    }
    sheet.edge();
    for (bit, name) in STATUS_BITS.into_iter().enumerate() {
        sheet.row(name, &|column, _| match (column.status >> bit & 1, column.reported >> bit & 1) {
            (0, 0) if column.unknown => '?',
            (0, 0) => ' ',
            (_, 0) => 'd',
            (0, _) => 'l',
            _ => '#',
        });
    }
    sheet.axis(trace.ticks, stretch);
    sheet.out.push('\n');
    let unknown = sheet.columns.iter().any(|column| column.unknown);
    let legend = format!(
        "Chart: . damper, - log (the last report, held), # both, o report; ! refused, ^ restart. \
         Distance: in tens of positions, . below ten, + a hundred or more. \
         Source: # rules. Status: d in the drive only, l in the log only, # in both{}.",
        if unknown { ", ? not known in the drive" } else { "" },
    );
    let shared = (stretch > 1).then_some("in one column and row");
    let remarks = [vec![legend], caption::remarks(trace, stretch, shared)].concat();
    sheet.wrapped(&remarks.join(" "), width);
    sheet.out
}

/// A report is shown at its tick, the first character of a broad column.
fn chart(column: &Column, first: bool, row: u8) -> char {
    let within = |span: Option<Span>| {
        span.is_some_and(|span| (row_of(span.least)..=row_of(span.greatest)).contains(&row))
    };
    let reported = || (0..=255).any(|p| row_of(p) == row && column.reports.contains(p));
    match (within(column.damper), within(column.log)) {
        _ if first && reported() => 'o',
        (true, true) => '#',
        (true, false) => '.',
        (false, true) => '-',
        (false, false) => ' ',
    }
}

/// The nearest row.
fn row_of(position: u8) -> u8 {
    ((u16::from(position) * u16::from(ROWS - 1) + 127) / 255) as u8
}

fn distance(column: &Column) -> char {
    match column.distance {
        None | Some(0) => ' ',
        Some(1..=9) => '.',
        Some(positions @ 10..=99) => char::from(b'0' + positions / 10),
        Some(_) => '+',
    }
}

struct Sheet {
    columns: Vec<Column>,
    broad: usize,
    out: String,
}

impl Sheet {
    /// A name, and a character for each place; told is whether it is the first of its column.
    fn row(&mut self, name: &str, character: &dyn Fn(&Column, bool) -> char) {
        self.out += &format!("{name:>width$} |", width = MARGIN - 1);
        for column in &self.columns {
            self.out.extend((0..self.broad).map(|place| character(column, place == 0)));
        }
        self.out += "|\n";
    }

    fn edge(&mut self) {
        let line = "-".repeat(self.columns.len() * self.broad);
        self.out += &format!("{:MARGIN$}+{line}+\n", "");
    }

    /// Round ticks under the places where they are.
    fn axis(&mut self, ticks: u64, stretch: u64) {
        let length = self.columns.len() * self.broad;
        let step = caption::round_step(ticks, (length as u64 / 12).max(1));
        let (mut line, mut labels) = ("-".repeat(length), String::new());
        for tick in (0..=ticks / step).map(|count| count * step) {
            let at = (tick / stretch) as usize * self.broad;
            line.replace_range(at..at + 1, "+");
            let label = digits(tick);
            let start = at.min((length + 1).saturating_sub(label.len()));
            if labels.is_empty() || labels.len() < start {
                labels = format!("{labels:start$}{label}");
            }
        }
        self.out += &format!("{:MARGIN$}+{line}+\n{:>before$}  {labels}\n", "", "ticks", before = MARGIN - 1);
    }

    /// Words in lines of at most so many characters.
    fn wrapped(&mut self, text: &str, width: usize) {
        let mut used = 0;
        for word in text.split(' ') {
            if used > 0 && used + 1 + word.len() > width {
                self.out.push('\n');
                used = 0;
            } else if used > 0 {
                self.out.push(' ');
                used += 1;
            }
            self.out += word;
            used += word.len();
        }
        self.out.push('\n');
    }
}

/// Plain characters only, so that no name steers the terminal.
fn printable(text: &str) -> String {
    text.chars().map(|character| if matches!(character, ' '..='~') { character } else { '?' }).collect()
}

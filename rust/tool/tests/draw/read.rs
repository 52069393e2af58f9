//! What a picture shows, read back from its text by the ids that `damper_tool::draw::svg` names.

use crate::xml::{self, Element};
use damper_tool::draw::svg::{BOTTOM, LEFT, SPAN, UNIT};
use std::collections::{BTreeMap, BTreeSet};

/// By column, from 0.
#[derive(Debug, Default, PartialEq, Eq)]
pub struct Shown {
    /// Least and greatest position.
    pub damper: BTreeMap<usize, (u8, u8)>,
    pub log: BTreeMap<usize, (u8, u8)>,
    /// Column and position of all ink of reports.
    pub reports: BTreeSet<(usize, u8)>,
    /// How many events the marks tell of.
    pub refused: BTreeMap<usize, u64>,
    pub restarts: BTreeMap<usize, u64>,
    pub ranks: [BTreeSet<usize>; 7],
    pub status: [BTreeSet<usize>; 6],
    pub reported: [BTreeSet<usize>; 6],
    /// How many of the first columns have an unknown status.
    pub unknown: usize,
}

/// Of a picture of so many columns; it panics where that is not well-formed XML.
pub fn shown(svg: &str, columns: usize) -> Shown {
    let elements = xml::elements(svg).unwrap();
    let root = &elements[0];
    assert_eq!((&*root.name, root.get("role")), ("svg", Some("img")));
    assert!(root.get("xmlns").is_some() && root.get("viewBox").is_some());
    let ids: Vec<&str> = elements.iter().filter_map(|element| element.get("id")).collect();
    assert_eq!(ids.len(), ids.iter().collect::<BTreeSet<_>>().len(), "an id twice");

    let picture = Picture { elements, columns };
    Shown {
        damper: picture.curve("damper"),
        log: picture.curve("log"),
        reports: picture.reports(),
        refused: picture.marks("refused"),
        restarts: picture.marks("restarts"),
        ranks: std::array::from_fn(|rank| picture.row(&format!("rank-{rank}"))),
        status: std::array::from_fn(|bit| picture.row(&format!("status-{bit}"))),
        reported: std::array::from_fn(|bit| picture.row(&format!("reported-{bit}"))),
        unknown: picture.unknown(),
    }
}

struct Picture {
    elements: Vec<Element>,
    columns: usize,
}

impl Picture {
    fn place(&self, id: &str) -> Option<usize> {
        self.elements.iter().position(|element| element.get("id") == Some(id))
    }

    fn children(&self, place: usize) -> impl Iterator<Item = (usize, &Element)> {
        self.elements.iter().enumerate().filter(move |(_, element)| element.parent == Some(place))
    }

    /// The text of the title of an element.
    fn title(&self, place: usize) -> &str {
        let (_, title) = self.children(place).find(|(_, child)| child.name == "title").expect("a title");
        &title.text
    }

    /// Columns from the left edge, which may lie at an edge between two.
    fn along(&self, x: f64) -> f64 {
        (x - LEFT) / SPAN * self.columns as f64
    }

    /// The edge at which something stands.
    fn edge(&self, x: f64) -> usize {
        let along = self.along(x);
        assert!((along - along.round()).abs() < 0.02, "{x} is no edge of a column");
        along.round() as usize
    }

    fn curve(&self, id: &str) -> BTreeMap<usize, (u8, u8)> {
        let mut spans = BTreeMap::new();
        let Some(place) = self.place(id) else { return spans };
        let element = &self.elements[place];
        let outline = element.get("fill") != Some("none");
        let (mut x, mut y) = (0, 0);
        let mut greatest = BTreeMap::new();
        for (command, numbers) in commands(element.get("d").unwrap()) {
            match (command, &numbers[..]) {
                ('M', [at, height]) => (x, y) = (self.edge(*at), position(*height)),
                ('V', [height]) => y = position(*height),
                ('H', [at]) => {
                    let end = self.edge(*at);
                    for column in x..end {
                        assert_eq!(spans.insert(column, (y, y)), None, "the least twice");
                    }
                    for column in end..x {
                        assert_eq!(greatest.insert(column, y), None, "the greatest twice");
                    }
                    x = end;
                }
                ('z', []) => {}
                other => panic!("{other:?}"),
            }
        }
        assert_eq!(outline, !greatest.is_empty());
        for (column, greatest) in greatest {
            spans.get_mut(&column).expect("a least").1 = greatest;
        }
        spans
    }

    fn reports(&self) -> BTreeSet<(usize, u8)> {
        let place = self.place("reports").expect("reports, if only none");
        let element = &self.elements[place];
        let mut ink = BTreeSet::new();
        if element.name == "g" {
            for (place, circle) in self.children(place) {
                let number = |name| circle.get(name).unwrap().parse::<f64>().unwrap();
                let at = position(number("cy"));
                ink.insert(((self.along(number("cx")) + 0.02) as usize, at));
                let title = self.title(place);
                assert!(title.contains(&format!(": position {at} (")), "{title}");
            }
            return ink;
        }
        let middle = LEFT + SPAN / self.columns as f64 / 2.0;
        let (moved, scale) = transform(element);
        assert!((moved.0 - middle).abs() < 0.01 && (moved.1 - BOTTOM - UNIT / 2.0).abs() < 0.01);
        assert!((scale.0 * self.columns as f64 - SPAN).abs() < 0.01 && scale.1 == -UNIT);
        let (mut x, mut y) = (0.0, 0.0);
        for (command, numbers) in commands(element.get("d").unwrap()) {
            match (command, &numbers[..]) {
                ('M', [column, position]) => (x, y) = (*column, *position),
                ('m', [columns, positions]) => (x, y) = (x + columns, y + positions),
                ('v', [length]) => {
                    for step in 0..*length as usize {
                        assert!(ink.insert((x as usize, (y + step as f64) as u8)), "ink twice");
                    }
                    y += length;
                }
                other => panic!("{other:?}"),
            }
        }
        ink
    }

    /// A title tells when, then how many.
    fn marks(&self, id: &str) -> BTreeMap<usize, u64> {
        let place = self.place(id).expect("marks, if only none");
        let mut marks = BTreeMap::new();
        for (place, path) in self.children(place) {
            let along = self.along(commands(path.get("d").unwrap())[0].1[0]);
            assert!((along.fract() - 0.5).abs() < 0.02, "a mark is not in the middle of its column");
            let title = self.title(place);
            let (_, told) = title.split_once(": ").unwrap();
            let count = told.split(' ').next().unwrap().replace(',', "").parse().unwrap();
            assert_eq!(marks.insert(along as usize, count), None, "two marks in a column");
        }
        marks
    }

    fn unknown(&self) -> usize {
        let Some(place) = self.place("unknown") else { return 0 };
        let number = |name| self.elements[place].get(name).unwrap().parse::<f64>().unwrap();
        assert_eq!(number("x"), LEFT);
        self.edge(number("x") + number("width"))
    }

    fn row(&self, id: &str) -> BTreeSet<usize> {
        let mut lit = BTreeSet::new();
        let Some(place) = self.place(id) else { return lit };
        let (moved, scale) = transform(&self.elements[place]);
        assert!(moved.0 == LEFT && (scale.0 * self.columns as f64 - SPAN).abs() < 0.01 && scale.1 == 1.0);
        let mut x = 0;
        for (command, numbers) in commands(self.elements[place].get("d").unwrap()) {
            match (command, &numbers[..]) {
                ('M', [0.0, 0.0]) => {}
                ('m', [columns, 0.0]) => x += *columns as usize,
                ('h', [columns]) => {
                    lit.extend(x..x + *columns as usize);
                    x += *columns as usize;
                }
                other => panic!("{other:?}"),
            }
        }
        lit
    }
}

fn position(y: f64) -> u8 {
    let position = (BOTTOM - y) / UNIT;
    assert!((position - position.round()).abs() < 0.02 && (-0.5..255.5).contains(&position));
    position.round() as u8
}

/// `translate(x y) scale(x y)`
fn transform(element: &Element) -> ((f64, f64), (f64, f64)) {
    let numbers: Vec<f64> = element
        .get("transform")
        .unwrap()
        .split(['(', ')', ' '])
        .filter_map(|part| part.parse().ok())
        .collect();
    ((numbers[0], numbers[1]), (numbers[2], numbers[3]))
}

/// The commands of a path, each with its numbers.
fn commands(data: &str) -> Vec<(char, Vec<f64>)> {
    let mut commands: Vec<(char, Vec<f64>)> = Vec::new();
    let mut rest = data;
    while let Some(first) = rest.chars().next() {
        if first.is_ascii_alphabetic() {
            commands.push((first, Vec::new()));
            rest = &rest[1..];
        } else if first == ' ' {
            rest = &rest[1..];
        } else {
            let body = |c: char| c.is_ascii_digit() || c == '.';
            let length = rest[1..].find(|c| !body(c)).map_or(rest.len(), |at| at + 1);
            commands.last_mut().expect("a command").1.push(rest[..length].parse().unwrap());
            rest = &rest[length..];
        }
    }
    commands
}

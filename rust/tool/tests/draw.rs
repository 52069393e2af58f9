//! Pictures of logs: as the golden files are, well-formed, read back record by record, small, and drawn from
//! any input.
//!
//! `DAMPER_GOLDEN=write cargo test -p damper-tool --test draw` writes tests/golden/draw anew.

mod common;
#[path = "draw/read.rs"]
mod read;
#[path = "draw/xml.rs"]
mod xml;

use common::as_golden;
use damper::{Answer, Command, Drive, Event, Parameter, Said};
use damper_check::gen::{records, Rng};
use damper_tool::draw::trace::{Distance, Source, Trace};
use damper_tool::draw::{proved, svg, text, told};
use damper_tool::input::Input;
use damper_tool::recording::Recording;
use read::Shown;
use std::collections::{BTreeMap, BTreeSet};
use std::io::{Cursor, Read, Write};
use std::path::{Path, PathBuf};
use std::process::{self, Stdio};
use std::{env, fs};

/// Less than a megabyte.
const SIZE: usize = 1_000_000;

fn bytes(event: Event) -> [u8; 6] {
    event.to_bytes().unwrap()
}

/// The proved drive along records of six bytes and a shorter rest.
fn of(records: &[u8]) -> Trace {
    proved(&mut Input::new("records", Cursor::new(records.to_vec()))).unwrap()
}

fn recording(records: Vec<u8>, lines: Vec<u8>) -> Recording {
    Recording::new(Input::new("records", Cursor::new(records)), Input::new("lines", Cursor::new(lines)))
}

/// What a drive said to each record.
fn of_lines(records: &[u8], said: &[Said]) -> Trace {
    let lines: String = said.iter().zip(1..).map(|(said, count)| format!("{count} {said}\n")).collect();
    told(&mut recording(records.to_vec(), lines.into_bytes())).unwrap()
}

/// The scenario of ./sample.
fn scenario() -> Vec<u8> {
    let text = include_str!("../../../examples/scenario.txt");
    let byte = |line: &str, at: usize| u8::from_str_radix(&line[2 * at..2 * at + 2], 16).unwrap();
    text.lines().flat_map(|line| (0..6).map(move |at| byte(line, at))).collect()
}

/// Six hundred ticks with every source, refused events, and restarts with and without synchronization.
fn mixed() -> Vec<u8> {
    let lte = |command| Event::Lte { property: 51, command };
    let set = Event::WriteParameter;
    let parts: [(&[Event], usize); 18] = [
        (&[set(Parameter::Rate, 2), set(Parameter::RepPer, 120), set(Parameter::Timeout, 150)], 15),
        (&[Event::Setpoint(128)], 60),
        (&[lte(Command::Override(80))], 50),
        (&[Event::Forcing(3)], 40),
        (&[Event::Calibration, Event::Forcing(0)], 20),
        (&[lte(Command::Release)], 10),
        (&[Event::Calibration], 1),
        (&[set(Parameter::Rate, 3)], 139),
        (&[Event::Setpoint(60)], 20),
        (&[Event::Restart], 30),
        (&[Event::Setpoint(200)], 40),
        (&[Event::Fault(true)], 20),
        (&[Event::Fault(false)], 20),
        (&[Event::Hand(Some(33))], 30),
        (&[Event::Hand(None)], 40),
        (&[set(Parameter::StartSynchronization, 2), Event::Restart], 60),
        (&[Event::Lte { property: 52, command: Command::Write(10) }, Event::ReadPosition], 4),
        (&[set(Parameter::Low, 9), set(Parameter::High, 8)], 1),
    ];
    let mut list = Vec::new();
    for (events, ticks) in parts {
        events.iter().for_each(|event| list.extend(bytes(*event)));
        list.extend(bytes(Event::Tick).repeat(ticks));
    }
    list
}

/// A drive that goes where it should, and then creeps and does not say so until asked.
fn creeping() -> (Vec<u8>, Vec<Said>) {
    let mut list = bytes(Event::Setpoint(100)).to_vec();
    let mut said = vec![Said::Done];
    let mut position = 0;
    for tick in 1..=300 {
        match tick {
            ..=20 => position += 5,
            60.. if tick % 6 == 0 => position -= 1,
            _ => {}
        }
        let report = (tick <= 25 && tick % 5 == 0).then_some(0);
        list.extend(bytes(Event::Tick));
        said.push(Said::Tick { position, rank: 1, motor: u8::from(tick <= 20), report });
        if tick == 200 {
            list.extend(bytes(Event::ReadPosition));
            said.push(Said::Position { position, percent: 30, status: 2 });
            list.extend(bytes(Event::Setpoint(100)));
            said.push(Said::Refused(14));
        }
    }
    (list, said)
}

#[test]
fn golden_files() {
    let (list, said) = creeping();
    let pictures = [
        ("scenario", of(&scenario())),
        ("mixed", of(&mixed())),
        ("long", of(&[&mixed().repeat(4)[..], &[0x5A]].concat())),
        ("creeping", of_lines(&list, &said)),
        ("empty", of(&[])),
    ];
    for (name, trace) in pictures {
        let heading = format!("Damper and log of {name}");
        as_golden(&format!("draw/{name}.svg"), &svg::draw(&trace, &heading));
        as_golden(&format!("draw/{name}.txt"), &text::draw(&trace, &heading, 80));
    }
}

/// What happened from one tick to the next, read off records and answers one by one.
#[derive(Default, Clone)]
struct Cell {
    positions: BTreeSet<u8>,
    log: BTreeSet<u8>,
    reports: BTreeSet<u8>,
    ranks: BTreeSet<usize>,
    status: u8,
    reported: u8,
    refused: u64,
    restarts: u64,
}

/// From before the first tick on; and the greatest distance between damper and log, with its first tick.
fn cells(records: &[u8]) -> (Vec<Cell>, Option<Distance>) {
    let mut greatest: Option<Distance> = None;
    let mut drive = Drive::fresh();
    let mut log = None;
    let mut cells = vec![Cell { positions: [0].into(), status: 32, ..Cell::default() }];
    for record in records.chunks(6) {
        let answer = drive.step(record);
        if matches!(answer, Answer::Tick { .. }) {
            cells.push(Cell::default());
        }
        let cell = cells.last_mut().unwrap();
        match answer {
            Answer::Refused(_) => cell.refused += 1,
            Answer::Done => cell.restarts += u64::from(record[2] == 9),
            Answer::Tick { position, rank, report, .. } => {
                cell.ranks.insert(rank.number().into());
                if let Some(status) = report {
                    log = Some((position, status.0));
                    cell.reports.insert(position);
                }
            }
            _ => {}
        }
        cell.positions.insert(drive.position);
        let Answer::Position { status, .. } = drive.give(Event::ReadPosition) else { panic!() };
        cell.status |= status.0;
        cell.log.extend(log.map(|log| log.0));
        cell.reported |= log.map_or(0, |log| log.1);
        if let Some((reported, _)) = log {
            let positions = reported.abs_diff(drive.position);
            if greatest.is_none_or(|greatest| positions > greatest.positions) {
                greatest = Some(Distance { positions, tick: cells.len() as u64 - 1 });
            }
        }
    }
    (cells, greatest)
}

/// What a picture with so many cells to a column must show.
fn due(cells: &[Cell], stretch: usize) -> Shown {
    let mut due = Shown::default();
    for (at, cells) in cells.chunks(stretch).enumerate() {
        let span = |values: BTreeSet<u8>| Some((*values.first()?, *values.last()?));
        let all = |part: fn(&Cell) -> &BTreeSet<u8>| cells.iter().flat_map(part).copied().collect();
        due.damper.extend(span(all(|cell| &cell.positions)).map(|span| (at, span)));
        due.log.extend(span(all(|cell| &cell.log)).map(|span| (at, span)));
        due.reports.extend(all(|cell| &cell.reports).into_iter().map(|position| (at, position)));
        let sum = |part: fn(&Cell) -> u64| Some(cells.iter().map(part).sum()).filter(|sum| *sum > 0);
        due.refused.extend(sum(|cell| cell.refused).map(|count| (at, count)));
        due.restarts.extend(sum(|cell| cell.restarts).map(|count| (at, count)));
        cells.iter().flat_map(|cell| &cell.ranks).for_each(|rank| {
            due.ranks[*rank].insert(at);
        });
        for bit in 0..6 {
            if cells.iter().any(|cell| cell.status >> bit & 1 == 1) {
                due.status[bit].insert(at);
            }
            if cells.iter().any(|cell| cell.reported >> bit & 1 == 1) {
                due.reported[bit].insert(at);
            }
        }
    }
    due
}

/// The picture of the proved drive shows all of this input and nothing else; gives its text.
fn shows_all(records: &[u8]) -> String {
    let trace = of(records);
    let (columns, stretch) = trace.columns(svg::COLUMNS);
    let (cells, greatest) = cells(records);
    assert_eq!(columns.len(), cells.len().div_ceil(stretch as usize));
    assert_eq!(trace.greatest, greatest);
    let picture = svg::draw(&trace, "Damper and log");
    assert!(picture.len() < SIZE, "{} bytes", picture.len());
    let shown = read::shown(&picture, columns.len());
    let due = due(&cells, stretch as usize);
    assert_eq!(shown.reports, due.reports);
    assert_eq!((&shown.refused, &shown.restarts), (&due.refused, &due.restarts));
    assert!(shown == due, "damper, log or a band");
    picture
}

#[test]
fn every_report_mark_and_bit_is_shown() {
    shows_all(&scenario());
    shows_all(&mixed());
    shows_all(&[]);
    shows_all(&bytes(Event::Tick));
    shows_all(&[0x5A]);
    for (length, seed) in [(100, 1), (1_000, 2), (5_000, 3), (20_000, 4), (100_000, 5)] {
        shows_all(&records(length, seed));
    }
}

#[test]
fn a_million_random_records() {
    let picture = shows_all(&records(1_000_000, 6));
    assert!(picture.len() > 100_000);
}

/// A report at each tick, of another position than the one before.
#[test]
fn a_million_records_of_which_half_report() {
    let mut list = Vec::new();
    let write = |parameter, value| bytes(Event::WriteParameter(parameter, value));
    list.extend(write(Parameter::MinRepTime, 1));
    list.extend(write(Parameter::Rate, 255));
    list.extend(write(Parameter::ActPosCov, 1));
    let mut rng = Rng::new(7);
    let mut position = 0u8;
    while list.len() < 6_000_000 {
        position = position.wrapping_add(3 + rng.below(250) as u8);
        list.extend(bytes(Event::Setpoint(position)));
        list.extend(bytes(Event::Tick));
    }
    assert_eq!(of(&list).reports, of(&list).ticks);
    shows_all(&list);
}

/// The most that a picture can hold: every second position of each column reported, other ones in the next
/// column; each rank and bit in every second column; refused events, restarts and another distance in each.
#[test]
fn the_greatest_picture() {
    const STRETCH: usize = 1024;
    let (mut list, mut said) = (Vec::new(), Vec::new());
    let mut reports = BTreeSet::new();
    for column in 0..svg::COLUMNS {
        let odd = column % 2;
        for place in 0..STRETCH {
            if place > 0 || column > 0 {
                let position = (2 * place % 256 + odd) as u8;
                let rank = if odd == 0 { place as u8 % 7 } else { 7 };
                let status = if odd == 0 { 63 } else { 0 };
                list.extend(bytes(Event::Tick));
                said.push(Said::Tick { position, rank, motor: 0, report: Some(status) });
                reports.insert((column, position));
            }
            if place == STRETCH / 2 {
                list.extend(bytes(Event::Restart));
                said.push(Said::Done);
            }
            if place % 8 == 0 {
                list.extend(bytes(Event::ReadPosition));
                said.push(Said::Refused(13));
            }
            if place == STRETCH - 1 {
                list.extend(bytes(Event::ReadPosition));
                said.push(Said::Position { position: 177 + odd as u8, percent: 0, status: 0 });
            }
        }
    }
    let trace = of_lines(&list, &said);
    let (columns, stretch) = trace.columns(svg::COLUMNS);
    assert_eq!((columns.len(), stretch), (svg::COLUMNS, STRETCH as u64));
    let picture = svg::draw(&trace, &"&".repeat(100));
    assert!((870_000..SIZE).contains(&picture.len()), "{} bytes", picture.len());
    let shown = read::shown(&picture, columns.len());
    assert_eq!(shown.reports, reports);
    assert!((0..svg::COLUMNS).all(|at| shown.refused[&at] == 128 && shown.restarts[&at] == 1));
    let even: BTreeSet<usize> = (0..svg::COLUMNS).step_by(2).collect();
    assert!(shown.ranks.iter().all(|lit| *lit == even));
}

/// Reports of which each is a circle, as many as there may be.
#[test]
fn the_most_circles() {
    let said = |status| Said::Tick { position: 255, rank: 6, motor: 2, report: Some(status) };
    for count in [2_000, 2_001] {
        let list = bytes(Event::Tick).repeat(count);
        let picture = svg::draw(&of_lines(&list, &vec![said(255); count]), "");
        assert!(picture.len() < SIZE, "{} bytes", picture.len());
        assert_eq!(picture.matches("<circle").count(), if count == 2_000 { 2_001 } else { 0 });
        assert_eq!(picture.contains("Every report has a mark, which several"), count == 2_001);
    }
}

/// A report is an `o` at its tick and nearest row; no other is there. No line is longer than the terminal's.
fn text_shows_all(records: &[u8], width: usize) {
    let trace = of(records);
    let picture = text::draw(&trace, "Damper and log", width);
    assert!(picture.bytes().all(|byte| matches!(byte, b' '..=b'~' | b'\n')));
    assert!(picture.lines().all(|line| line.len() <= width), "{picture}");
    let (columns, _) = trace.columns(width - 18);
    let chart: Vec<&str> =
        picture.lines().skip_while(|line| !line.contains("restart |")).skip(2).take(17).collect();
    let broad = (chart[0].len() - 18) / columns.len();
    for (at, column) in columns.iter().enumerate() {
        for (row, line) in chart.iter().rev().enumerate() {
            let reported = (0..=255u8).any(|position| {
                let nearest = (f64::from(position) * 16.0 / 255.0).round() as usize;
                nearest == row && column.reports.contains(position)
            });
            assert_eq!(line.as_bytes()[17 + at * broad] == b'o', reported, "{picture}");
        }
    }
}

#[test]
fn every_report_is_in_the_text() {
    for width in [40, 41, 80, 137, 400] {
        text_shows_all(&[], width);
        text_shows_all(&scenario(), width);
        text_shows_all(&mixed(), width);
        text_shows_all(&records(30_000, width as u64), width);
    }
}

#[test]
fn any_bytes_are_drawn() {
    let mut rng = Rng::new(8);
    for round in 0..300 {
        let mut list: Vec<u8> = (0..rng.below(600)).map(|_| rng.byte()).collect();
        if round % 2 == 0 {
            // Kinds that exist, mostly ticks, with any data.
            for record in list.chunks_mut(6).filter(|record| record.len() == 6) {
                record[..2].copy_from_slice(&[0x5A, 0xC3]);
                record[2] = if rng.once_in(3) { record[2] % 13 } else { 1 };
                if record[2] == 1 || rng.once_in(2) {
                    record[3..].copy_from_slice(&[0, 0, 0]);
                }
            }
        }
        shows_all(&list);
        text_shows_all(&list, 40 + rng.below(361) as usize);
    }
}

/// Whatever another drive says, in lines that can be read and in lines that cannot.
#[test]
fn any_lines_are_drawn() {
    let mut rng = Rng::new(9);
    for round in 0..300 {
        let count = rng.below(400) as usize;
        let list = records(count, round);
        let some = |rng: &mut Rng| match rng.below(6) {
            0 => Said::Refused(rng.byte()),
            1 => Said::Done,
            2 => Said::Parameter(rng.draw() as u16),
            3 => Said::Position { position: rng.byte(), percent: rng.byte(), status: rng.byte() },
            _ => {
                let report = rng.once_in(2).then(|| rng.byte());
                Said::Tick { position: rng.byte(), rank: rng.byte() % 9, motor: rng.byte(), report }
            }
        };
        let said: Vec<Said> = (0..count).map(|_| some(&mut rng)).collect();
        let trace = of_lines(&list, &said);
        let columns = trace.columns(svg::COLUMNS).0.len();
        read::shown(&svg::draw(&trace, "a <name> & \"another\" \u{1b}[2J"), columns);
        text::draw(&trace, "a\u{1b}[2J", 40 + rng.below(361) as usize);

        let garbled: Vec<u8> = (0..rng.below(60)).map(|_| rng.pick(b"0123 tickokatnopar-\n\r\xff")).collect();
        let _ = told(&mut recording(list, garbled));
    }
}

/// The same drive by its own lines: the same damper, log, reports, marks and sources.
#[test]
fn the_proved_drive_by_its_lines() {
    let list = records(50_000, 10);
    let mut drive = Drive::fresh();
    let said: Vec<Said> = list.chunks(6).map(|record| drive.step(record).said()).collect();
    let (own, told) = (of(&list), of_lines(&list, &said));
    let columns = own.columns(svg::COLUMNS).0.len();
    let shown = |trace| read::shown(&svg::draw(trace, ""), columns);
    let (own, told) = (shown(&own), shown(&told));
    assert_eq!(own.damper, told.damper);
    assert_eq!((own.log, own.reports, own.ranks), (told.log, told.reports, told.ranks));
    assert_eq!((own.refused, own.restarts, own.reported), (told.refused, told.restarts, told.reported));
}

/// Of a drive by its lines: hatched until a line tells it; and `?` in characters.
#[test]
fn a_status_that_is_not_known() {
    let tick = |report| Said::Tick { position: 0, rank: 0, motor: 0, report };
    let list = bytes(Event::Tick).repeat(20);
    let mut said = [tick(None); 20];
    let shown = |said: &[Said]| {
        let trace = of_lines(&list, said);
        let (picture, in_characters) = (svg::draw(&trace, ""), text::draw(&trace, "", 80));
        let Shown { unknown, damper, .. } = read::shown(&picture, 21);
        assert_eq!(damper, (0..21).map(|column| (column, (0, 0))).collect::<BTreeMap<_, _>>());
        assert!(in_characters.replace('\n', " ").contains("? not known in the drive."));
        let fault = in_characters.lines().filter(|line| line.contains("fault |")).nth(1).unwrap();
        assert_eq!(fault.matches('?').count(), 2 * unknown);
        assert_eq!(picture.matches("url(#hatch)").count(), 2);
        unknown
    };
    assert_eq!(shown(&said), 21);
    said[9] = tick(Some(0));
    assert_eq!(shown(&said), 10);
    let own = of(&list);
    assert!(!svg::draw(&own, "").contains("hatch") && !text::draw(&own, "", 80).contains('?'));
}

/// What has no row is said to have none, and only where it is met.
#[test]
fn what_is_not_shown() {
    let rank = "A rank that is none of 0 to 6 is not shown.";
    let bits = "Bits 6 and 7 of a status have no row.";
    let tick = |rank, report| Said::Tick { position: 0, rank, motor: 0, report };
    let read = |status| Said::Position { position: 0, percent: 0, status };
    let cases = [
        (tick(6, Some(63)), false, false),
        (tick(7, None), true, false),
        (tick(255, Some(63)), true, false),
        (tick(0, Some(64)), false, true),
        (read(63), false, false),
        (read(128), false, true),
    ];
    for (said, of_rank, of_bits) in cases {
        let trace = of_lines(&bytes(Event::Tick), &[said]);
        let in_characters = text::draw(&trace, "", 400).replace('\n', " ");
        for picture in [svg::draw(&trace, ""), in_characters] {
            assert_eq!((picture.contains(rank), picture.contains(bits)), (of_rank, of_bits), "{said}");
        }
    }
}

/// The legend has the marks as they are drawn.
#[test]
fn a_legend_of_the_marks() {
    for count in [1, 100, 101, 300] {
        let each = [&bytes(Event::Tick)[..], &bytes(Event::Restart), &[0; 6]].concat();
        let picture = svg::draw(&of(&each.repeat(count)), "");
        let (_, rest) = picture.split_once("<g id=\"legend\">").unwrap();
        let (legend, rest) = rest.split_once("</g>").unwrap();
        let (_, refused) = rest.split_once("<g id=\"refused\">").unwrap();
        let shape = refused.split('"').nth(1).unwrap().split_once('m').unwrap().1;
        assert!(legend.contains(&format!("m{shape}\"/>")), "{shape} in {legend}");
        let (_, restarts) = rest.split_once("<g id=\"restarts\" ").unwrap();
        let style = restarts.split('>').next().unwrap();
        assert!(legend.contains(&format!("{style}/>")), "{style} in {legend}");
        assert_eq!(refused.split("</g>").next().unwrap().matches("<path").count(), count);
    }
}

#[test]
fn a_source_is_told() {
    assert_eq!((of(&[]).source(), of_lines(&[], &[]).source()), (Source::Proved, Source::Lines));
}

/// A folder of its own, gone at the end.
struct Folder(PathBuf);

impl Folder {
    fn new(name: &str) -> Folder {
        let path = env::temp_dir().join(format!("damper-draw-{name}-{}", process::id()));
        fs::create_dir_all(&path).unwrap();
        Folder(path)
    }

    fn file(&self, name: &str, content: &[u8]) -> String {
        let path = self.path(name);
        fs::write(&path, content).unwrap();
        path
    }

    fn path(&self, name: &str) -> String {
        self.0.join(name).to_str().unwrap().to_string()
    }
}

impl Drop for Folder {
    fn drop(&mut self) {
        let _ = fs::remove_dir_all(&self.0);
    }
}

/// `damper draw` with these arguments and this standard input: status, standard output and standard error.
fn damper(arguments: &[&str], input: &[u8]) -> (i32, String, String) {
    let mut child = process::Command::new(env!("CARGO_BIN_EXE_damper"))
        .arg("draw")
        .args(arguments)
        .env_remove("COLUMNS")
        .stdin(Stdio::piped())
        .stdout(Stdio::piped())
        .stderr(Stdio::piped())
        .spawn()
        .unwrap();
    // One that ends early does not read it.
    let _ = child.stdin.take().unwrap().write_all(input);
    let output = child.wait_with_output().unwrap();
    let text = |bytes| String::from_utf8(bytes).unwrap();
    (output.status.code().unwrap(), text(output.stdout), text(output.stderr))
}

#[test]
fn the_command() {
    let folder = Folder::new("command");
    let list = folder.file("mixed", &mixed());
    let (status, picture, error) = damper(&[&list], b"");
    assert_eq!((status, &*error), (0, ""));
    assert!(picture == svg::draw(&of(&mixed()), "Damper and log of mixed"));
    let unnamed = svg::draw(&of(&mixed()), "Damper and log");
    assert!(damper(&[], &mixed()).1 == unnamed && damper(&["-"], &mixed()).1 == unnamed);
    let target = folder.path("picture");
    assert_eq!(damper(&["--text", "-o", &target, &list], b""), (0, String::new(), String::new()));
    let in_characters = text::draw(&of(&mixed()), "Damper and log of mixed", 80);
    assert!(fs::read_to_string(&target).unwrap() == in_characters);
    let (status, help, _) = damper(&["--help"], b"");
    assert!(status == 0 && help.starts_with("usage: damper draw "));
    assert!(help.lines().all(|line| line.len() <= 80));
    assert!(damper(&["-o", &list, &list], b"").2.contains("the output would be written over the input"));
    assert!(fs::read(&list).unwrap() == mixed());
}

#[test]
fn what_cannot_be_drawn_has_its_place_and_leaves_no_file() {
    let folder = Folder::new("places");
    let ticks = folder.file("ticks", &bytes(Event::Tick).repeat(2));
    let lines = |text: &str| folder.file("lines", text.as_bytes());
    let target = folder.path("picture");
    let missing = folder.path("missing");
    let error = |arguments: &[&str]| {
        let (status, picture, error) = damper(&[&["-o", &target], arguments].concat(), b"");
        assert_eq!((status, &*picture), (2, ""));
        assert!(!Path::new(&target).exists());
        error
    };
    let few = lines("1 tick 0 0 0 -\n");
    assert!(error(&[&ticks, &few]).ends_with("lines:2:1: the line of record 2 is missing\n"));
    let many = lines("1 tick 0 0 0 -\n2 ok\n3 ok\n");
    assert!(error(&[&ticks, &many]).ends_with(":3:1: no record is left for this line; there are 2\n"));
    let wrong = lines("1 tick 0 0 0 -\n2 tick 256 0 0 -\n");
    assert!(error(&[&ticks, &wrong]).contains("lines:2:8: a position, 0 to 255, is due"));
    assert!(error(&[&missing]).contains("missing: "));
    assert!(error(&[&ticks, &missing]).contains("missing: "));
    assert!(error(&["-", "-"]).contains("only one of the two can be standard input"));
    assert!(error(&["--colour"]).contains("`--colour` is no option here"));
    assert!(error(&["a", "b", "c"]).contains("`c` is one word too many"));
    assert!(damper(&["-o"], b"").2.contains("`-o` wants a word behind it"));
}

/// A reader that goes away before the picture's end.
#[test]
fn a_closed_pipe_ends_it_quietly() {
    let folder = Folder::new("pipe");
    let list = folder.file("records", &records(200_000, 11));
    let mut child = process::Command::new(env!("CARGO_BIN_EXE_damper"))
        .args(["draw", &list])
        .stdout(Stdio::piped())
        .stderr(Stdio::piped())
        .spawn()
        .unwrap();
    let mut start = [0; 10];
    let mut output = child.stdout.take().unwrap();
    output.read_exact(&mut start).unwrap();
    drop(output);
    let output = child.wait_with_output().unwrap();
    assert_eq!((output.status.code(), &*output.stderr), (Some(0), &b""[..]));
}

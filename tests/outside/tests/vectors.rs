//! The case files of tests/reference/vectors, which another reference wrote: the library and the
//! reference of this crate both give what they expect.

use outside::library;
use outside::reference::{self, Answer, Order};
use outside::vectors::{sum, Side, Tokens};

/// Says which case failed.
struct Named<'a>(&'a str, &'a str, Side);

impl Drop for Named<'_> {
    fn drop(&mut self) {
        if std::thread::panicking() {
            eprintln!("{}, case '{}', by the {:?}", self.0, self.1, self.2);
        }
    }
}

/// Runs every case of a file.
fn every_case(file: &str, run: impl Fn(Side, &mut Tokens, &mut Tokens)) {
    let path = format!("{}/../reference/vectors/{file}", env!("CARGO_MANIFEST_DIR"));
    let text = std::fs::read_to_string(&path).unwrap_or_else(|error| panic!("{path}: {error}"));
    let mut count = 0;
    for line in text.lines().filter(|line| !line.is_empty() && !line.starts_with('#')) {
        let [name, call, expected] = line.split(" | ").collect::<Vec<_>>()[..] else { panic!("three parts: {line}") };
        for side in [Side::Library, Side::Reference] {
            let _named = Named(file, name, side);
            let (mut call, mut expected) = (Tokens::of(call), Tokens::of(expected));
            run(side, &mut call, &mut expected);
            call.end();
            expected.end();
        }
        count += 1;
    }
    assert!(count > 0, "{file} has no case");
    eprintln!("{file}: {count} cases");
}

/// What stands in lent memory before a call.
const CELL: i64 = -1_234_567_890_123;
const ENTRY: u32 = 987_654_321;
const WORD: u32 = 0xDEAD_BEEF;

/// The table that is expected: how many cells are written, their sum, and some
/// of them; the rest is as it was.
fn table(expected: &mut Tokens, cells: &[i64]) {
    expected.is("table");
    let (written, wanted): (usize, u64) = (expected.number(), expected.number());
    assert_eq!(sum(&cells[..written]), wanted);
    assert!(cells[written..].iter().all(|&cell| cell == CELL));
    for (index, value) in expected.counted(|tokens| (tokens.number::<usize>(), tokens.number::<i64>())) {
        assert_eq!(cells[index], value, "cell {index}");
    }
}

fn plan(side: Side, order: Order, call: &mut Tokens, expected: &mut Tokens) {
    let mut cells = vec![CELL; call.number()];
    let answer = call.given().plan(side, order, &mut cells);
    expected.answer(answer);
    table(expected, &cells);
}

fn tour(side: Side, call: &mut Tokens, expected: &mut Tokens) {
    let mut list = vec![ENTRY; call.number()];
    let (tour, stops) = call.tour();
    let toured = match side {
        Side::Library => library::plan_tour(&tour, &stops, &mut list),
        Side::Reference => tour.plan(&stops, &mut list),
    };
    expected.toured(toured);
    expected.is("list");
    let wanted: Vec<u32> = expected.counted(Tokens::number);
    assert_eq!(list[..wanted.len()], wanted);
    assert!(list[wanted.len()..].iter().all(|&entry| entry == ENTRY));
}

/// Every case of a file of tables and tours.
fn tables_and_tours(file: &str) {
    every_case(file, |side, call, expected| match call.word() {
        "plan" => plan(side, Order::Forwards, call, expected),
        "tour" => tour(side, call, expected),
        other => panic!("{other} is no call"),
    });
}

#[test]
fn tables() {
    for file in ["plans.txt", "spelled.txt", "damping.txt", "windows.txt", "rails.txt", "tours.txt", "sway.txt"] {
        tables_and_tours(file);
    }
}

#[test]
fn raises() {
    every_case("raises.txt", |side, call, expected| {
        call.is("raises");
        let (answer, raises) = call.given().raises(side);
        expected.answer(answer);
        assert_eq!(raises, expected.raises());
    });
}

fn convert(side: Side, call: &mut Tokens, expected: &mut Tokens) {
    let mut lent = vec![WORD; call.number()];
    call.is("words");
    let words = call.hexes();
    let converted = match side {
        Side::Library => library::convert(&words, &mut lent),
        Side::Reference => reference::convert(&words, &mut lent),
    };
    let place = |count: usize| Answer { number: 0, place: count as u64, mask: 0, arrival: 0 };
    expected.answer(converted.map_or_else(|refused| refused, place));
    expected.is("words");
    let wanted = expected.hexes();
    assert_eq!(lent[..wanted.len()], wanted);
    assert!(lent[wanted.len()..].iter().all(|&word| word == WORD));
}

#[test]
fn conversions() {
    every_case("convert.txt", |side, call, expected| {
        call.is("convert");
        convert(side, call, expected);
    });
}

#[test]
fn searches() {
    every_case("search.txt", |side, call, expected| {
        call.is("search");
        let (first, budget) = (call.number(), call.number());
        let got = call.given().search(side, first, budget);
        expected.searched(got);
    });
}

#[test]
fn backwards() {
    every_case("backwards.txt", |side, call, expected| {
        call.is("backwards");
        plan(side, Order::Backwards, call, expected);
    });
}

#[test]
fn parts() {
    every_case("parts.txt", |side, call, expected| {
        call.is("part");
        let first = call.number();
        let mut cells = vec![CELL; call.number()];
        let (answer, rows) = call.given().part(side, first, &mut cells);
        expected.answer(answer);
        expected.is("rows");
        assert_eq!(rows, expected.number::<u32>());
        table(expected, &cells);
    });
}

//! Every constant, struct and call of include/polgamir.h stands in this crate as the header has
//! it, and the structs are laid out as C lays them out on x86-64; `tests/c/interface.c` holds
//! the header to the same numbers.

use std::collections::BTreeMap;
use std::fs;
use std::mem::{offset_of, size_of};
use std::path::Path;

use polgamir_sys::*;

/// The header without its remarks.
fn header() -> String {
    let file = Path::new(env!("CARGO_MANIFEST_DIR")).join("../../../include/polgamir.h");
    let text = fs::read_to_string(&file).unwrap_or_else(|error| panic!("{}: {error}", file.display()));
    let parts = text.split("/*").enumerate().map(|(at, part)| match at {
        0 => part,
        _ => part.split_once("*/").expect("the end of a remark").1,
    });
    parts.collect()
}

/// This crate's source without its remarks.
fn source() -> String {
    let file = Path::new(env!("CARGO_MANIFEST_DIR")).join("src/lib.rs");
    let text = fs::read_to_string(file).expect("this crate's source");
    text.lines().filter(|line| !line.trim_start().starts_with("//")).map(|line| line.to_owned() + "\n").collect()
}

/// What stands between two texts, each time.
fn between<'t>(text: &'t str, from: &str, to: &str) -> Vec<&'t str> {
    text.split(from).skip(1).map(|part| part.split_once(to).expect("its end").0).collect()
}

/// The header's fields by struct, in order, with their types as Rust writes them.
fn declared() -> BTreeMap<String, Vec<(String, String)>> {
    let of_rust = |kind: &str| match kind {
        "uint32_t" => "u32".to_owned(),
        "uint64_t" => "u64".to_owned(),
        "int64_t" => "i64".to_owned(),
        "float" => "f32".to_owned(),
        other => other.to_owned(),
    };
    let field = |line: &str| {
        let (kind, name) = line.trim().split_once(' ').expect("a type and a name");
        let kind = of_rust(kind);
        match name.strip_suffix(']').and_then(|name| name.split_once('[')) {
            Some((name, count)) => (name.to_owned(), format!("[{kind}; {count}]")),
            None => (name.to_owned(), kind),
        }
    };
    let header = header();
    let structs = between(&header, "typedef struct ", "}").into_iter().map(|part| {
        let (name, fields) = part.split_once('{').expect("the fields");
        (name.trim().to_owned(), fields.split(';').filter(|line| !line.trim().is_empty()).map(field).collect())
    });
    structs.collect()
}

#[test]
fn structs_are_the_header_s() {
    let source = source();
    let own = between(&source, "pub struct ", "\n}").into_iter().map(|part| {
        let (name, fields) = part.split_once('{').expect("the fields");
        let fields = fields.lines().filter_map(|line| line.trim().strip_prefix("pub ")?.strip_suffix(','));
        let pairs = fields.map(|field| field.split_once(": ").expect("a name and a type"));
        (name.trim().to_owned(), pairs.map(|(name, kind)| (name.to_owned(), kind.to_owned())).collect())
    });
    let own: BTreeMap<String, Vec<(String, String)>> = own.collect();
    assert_eq!(own, declared());
}

#[test]
fn calls_are_the_header_s() {
    let (header, source) = (header(), source());
    let flat = |text: &str| text.split_whitespace().collect::<Vec<_>>().join(" ");
    let names = |list: &str| -> Vec<String> {
        let last = |one: &str| one.trim().rsplit([' ', '*']).next().unwrap_or_default().to_owned();
        list.split(',').map(last).filter(|name| !name.is_empty() && name != "void").collect()
    };
    let code: String =
        header.lines().filter(|line| !line.starts_with('#')).map(|line| line.to_owned() + "\n").collect();
    let declared = code.split(';').filter_map(|part| {
        let line = flat(part.rsplit('}').next()?);
        let (left, arguments) = line.strip_suffix(')')?.split_once('(')?;
        let (kind, name) = left.rsplit_once(' ')?;
        let kind = kind.rsplit(' ').next()?.replace("uint32_t", "u32");
        (name.starts_with("polgamir_") && !arguments.contains('{')).then(|| (name.to_owned(), (names(arguments), kind)))
    });
    let declared: BTreeMap<_, _> = declared.collect();
    let own = between(&source, "pub fn ", ";").into_iter().map(|part| {
        let line = flat(part);
        let (name, rest) = line.split_once('(').expect("its arguments");
        let (arguments, kind) = rest.split_once(") -> ").expect("its result");
        let first = |one: &str| one.split(':').next().unwrap_or_default().trim().to_owned();
        let arguments = arguments.split(',').map(first).filter(|name| !name.is_empty()).collect::<Vec<_>>();
        (name.to_owned(), (arguments, kind.to_owned()))
    });
    let own: BTreeMap<_, _> = own.collect();
    assert!(declared.len() > 10, "{declared:?}");
    assert_eq!(own, declared);
}

#[test]
fn constants_are_the_header_s() {
    let header = header();
    let defined = header.lines().filter_map(|line| line.strip_prefix("#define POLGAMIR_")?.split_once(' '));
    let macros: BTreeMap<&str, i64> =
        defined.filter_map(|(name, value)| Some((name, value.trim().parse().ok()?))).collect();
    let version = 1_000_000 * macros["VERSION_MAJOR"] + 1_000 * macros["VERSION_MINOR"] + macros["VERSION_PATCH"];
    assert_eq!(i64::from(POLGAMIR_VERSION), version);
    // SAFETY: the call takes nothing and has no state.
    assert_eq!(unsafe { polgamir_version() }, POLGAMIR_VERSION);
    let enumerated = between(&header, "enum ", "}").into_iter().filter(|part| !part.starts_with("polgamir_number"));
    let members: Vec<(String, i64)> = enumerated
        .flat_map(|part| part.split_once('{').expect("its members").1.split(','))
        .map(|member| member.split_once('=').expect("a number"))
        .map(|(name, value)| (name.trim()["POLGAMIR_".len()..].to_owned(), value.trim().parse().expect("a number")))
        .collect();
    let source = source();
    let own = between(&source, "pub const POLGAMIR_", ";").into_iter().filter_map(|part| {
        let (name, rest) = part.split_once(':')?;
        let value = rest.split_once('=')?.1.trim().replace('_', "").parse::<i64>().ok()?;
        Some((name.to_owned(), value))
    });
    let own: BTreeMap<String, i64> = own.collect();
    let wanted = ["AXES", "WINDOWS", "LATEST_ARRIVAL", "FINE_STEPS", "MOST_CELLS", "MOST_STOPS", "LONGEST_DWELL"];
    let wanted = wanted.map(|name| (name.to_owned(), macros[name]));
    assert_eq!(own, wanted.into_iter().chain(members).collect());
}

#[test]
fn the_layout_of_a_job_is_c_s() {
    let answer = [
        offset_of!(polgamir_answer, number),
        offset_of!(polgamir_answer, mask),
        offset_of!(polgamir_answer, place),
        offset_of!(polgamir_answer, arrival),
        size_of::<polgamir_answer>(),
    ];
    assert_eq!(answer, [0, 4, 8, 16, 24]);
    let axis = [
        offset_of!(polgamir_axis, start_position),
        offset_of!(polgamir_axis, start_velocity),
        offset_of!(polgamir_axis, target_position),
        offset_of!(polgamir_axis, target_velocity),
        offset_of!(polgamir_axis, target_acceleration),
        offset_of!(polgamir_axis, target_tick),
        offset_of!(polgamir_axis, target_kind),
        offset_of!(polgamir_axis, speed_limit),
        offset_of!(polgamir_axis, acceleration_limit),
        offset_of!(polgamir_axis, half_period),
        offset_of!(polgamir_axis, damping_kind),
        offset_of!(polgamir_axis, second_weight),
        offset_of!(polgamir_axis, swing_ratio),
        offset_of!(polgamir_axis, first_peak),
        offset_of!(polgamir_axis, second_peak),
        offset_of!(polgamir_axis, second_sway_given),
        offset_of!(polgamir_axis, second_half_period),
        size_of::<polgamir_axis>(),
    ];
    assert_eq!(axis, [0, 8, 16, 24, 32, 40, 48, 52, 56, 60, 64, 68, 72, 76, 80, 84, 88, 96]);
    let job = [
        offset_of!(polgamir_job, mask),
        offset_of!(polgamir_job, asked),
        offset_of!(polgamir_job, axes),
        offset_of!(polgamir_job, windows),
        size_of::<polgamir_job>(),
    ];
    assert_eq!(job, [0, 4, 8, 584, 856]);
    let windows = [
        offset_of!(polgamir_windows, given),
        offset_of!(polgamir_windows, dwell),
        offset_of!(polgamir_windows, count),
        offset_of!(polgamir_windows, list),
        offset_of!(polgamir_window, opening),
        offset_of!(polgamir_window, closing),
        size_of::<polgamir_window>(),
        size_of::<polgamir_windows>(),
    ];
    assert_eq!(windows, [0, 4, 8, 16, 0, 4, 8, 272]);
    let part = [
        offset_of!(polgamir_part_answer, number),
        offset_of!(polgamir_part_answer, mask),
        offset_of!(polgamir_part_answer, place),
        offset_of!(polgamir_part_answer, arrival),
        offset_of!(polgamir_part_answer, rows),
        size_of::<polgamir_part_answer>(),
    ];
    assert_eq!(part, [0, 4, 8, 16, 20, 24]);
}

#[test]
fn the_layout_of_raises_is_c_s() {
    let raise = [offset_of!(polgamir_raise, limit), offset_of!(polgamir_raise, by), size_of::<polgamir_raise>()];
    assert_eq!(raise, [0, 4, 8]);
    let axis = [
        offset_of!(polgamir_axis_raises, first),
        offset_of!(polgamir_axis_raises, second),
        size_of::<polgamir_axis_raises>(),
    ];
    assert_eq!(axis, [0, 8, 16]);
    let raises = [offset_of!(polgamir_raises, answer), offset_of!(polgamir_raises, axes), size_of::<polgamir_raises>()];
    assert_eq!(raises, [0, 24, 120]);
}

#[test]
fn the_layout_of_a_tour_is_c_s() {
    let limits = [
        offset_of!(polgamir_limits, speed_limit),
        offset_of!(polgamir_limits, acceleration_limit),
        offset_of!(polgamir_limits, half_period),
        offset_of!(polgamir_limits, damping_kind),
        offset_of!(polgamir_limits, second_weight),
        offset_of!(polgamir_limits, swing_ratio),
        offset_of!(polgamir_limits, first_peak),
        offset_of!(polgamir_limits, second_peak),
        offset_of!(polgamir_limits, second_sway_given),
        offset_of!(polgamir_limits, second_half_period),
        size_of::<polgamir_limits>(),
    ];
    assert_eq!(limits, [0, 4, 8, 12, 16, 20, 24, 28, 32, 36, 40]);
    let tour = [
        offset_of!(polgamir_tour, mask),
        offset_of!(polgamir_tour, start),
        offset_of!(polgamir_tour, limits),
        size_of::<polgamir_tour>(),
    ];
    assert_eq!(tour, [0, 8, 56, 296]);
    let stop = [offset_of!(polgamir_stop, positions), offset_of!(polgamir_stop, dwell), size_of::<polgamir_stop>()];
    assert_eq!(stop, [0, 48, 56]);
    let answer = [
        offset_of!(polgamir_tour_answer, number),
        offset_of!(polgamir_tour_answer, mask),
        offset_of!(polgamir_tour_answer, place),
        offset_of!(polgamir_tour_answer, arrival),
        offset_of!(polgamir_tour_answer, total),
        size_of::<polgamir_tour_answer>(),
    ];
    assert_eq!(answer, [0, 4, 8, 16, 20, 24]);
}

#[test]
fn the_layout_of_a_search_is_c_s() {
    let answer = [
        offset_of!(polgamir_search_answer, number),
        offset_of!(polgamir_search_answer, mask),
        offset_of!(polgamir_search_answer, place),
        offset_of!(polgamir_search_answer, arrival),
        offset_of!(polgamir_search_answer, report),
        offset_of!(polgamir_search_answer, next),
        offset_of!(polgamir_search_answer, tried),
        size_of::<polgamir_search_answer>(),
    ];
    assert_eq!(answer, [0, 4, 8, 16, 20, 24, 28, 32]);
}

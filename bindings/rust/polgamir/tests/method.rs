//! docs/METHOD.md: its numbers are those of the planner, its sections those that are
//! cited, and its parts are there.

mod common;

use std::collections::HashSet;
use std::fs;
use std::path::{Path, PathBuf};

use common::{field_axis, folder, CASE_C_TABLE, CASE_C_WORDS};
use polgamir::{plan_words, Axis, Damping, Job, Limit, Plan, Refusal, Report, RestPoint, State, Target};

/// The page.
fn page() -> String {
    fs::read_to_string(folder("docs").join("METHOD.md")).expect("docs/METHOD.md")
}

/// The page with each run of white space as one space: what it says, wherever its lines end.
fn words_of_page() -> String {
    page().split_whitespace().collect::<Vec<_>>().join(" ")
}

/// The printed tables of the page: each begins with an arrival line.
fn tables(page: &str) -> Vec<String> {
    let block = |start: usize| {
        let lines = page[start..].lines().skip(1).take_while(|line| !line.starts_with("```"));
        lines.map(|line| line.to_string() + "\n").collect()
    };
    page.match_indices("\narrival ").map(|(start, _)| block(start)).collect()
}

/// The numbers after a name at the head of a line.
fn numbers(page: &str, name: &str) -> Vec<i64> {
    let line = page.lines().find(|line| line.trim_start().starts_with(name)).expect(name);
    let words = line.trim_start()[name.len()..].split_whitespace();
    words.map(|word| word.replace('−', "-").parse().expect("a number")).collect()
}

fn printed(plan: &Plan) -> String {
    let row = |row: polgamir::Row| {
        let cells: String = row.cells().iter().map(|cell| format!(" {cell}")).collect();
        format!("{}{cells}\n", row.tick())
    };
    format!("arrival {}\n", plan.arrival()) + &plan.rows().map(row).collect::<String>()
}

/// The axis of the worked example.
fn example() -> Axis {
    let blend = Axis { half_period: 3, damping: Damping::Weight(96), ..field_axis(Target::still(13)) };
    Axis { speed_limit: 3, ..blend }
}

#[test]
fn printed_tables_are_the_planner_s() {
    let plan = Job::earliest().with_axis(0, example()).plan().expect("the worked example");
    assert_eq!(tables(&page()), [CASE_C_TABLE.to_string(), printed(&plan)]);
    let words: Vec<String> = CASE_C_WORDS.iter().map(|word| format!("{word:08X}")).collect();
    assert!(page().contains(&words.join(" ")));
}

/// The planned motion of the example is the table of the same axis without a blend, asked for the
/// landing tick, and it rests from there on.
#[test]
fn the_planned_motion_is_the_planner_s() {
    let planned = Job::arriving_at(8).with_axis(0, Axis { half_period: 0, ..example() }).plan().expect("a plan");
    let column = |quantity: usize| -> Vec<i64> { planned.rows().map(|row| row.cells()[quantity]).collect() };
    let page = page();
    assert_eq!(numbers(&page, "tick  "), (0..12).collect::<Vec<_>>());
    let rest = |cells: Vec<i64>, last: i64| [cells, vec![last; 3]].concat();
    assert_eq!(numbers(&page, "V     "), rest(column(1), 0));
    assert_eq!(numbers(&page, "α     "), rest(column(2), 0));
    let positions = numbers(&page, "Q     ");
    let twice = positions.iter().zip(rest(column(0), 3328)).map(|(half, fine)| (half - 2 * fine).abs());
    assert!(twice.max() <= Some(1), "half steps of rounded positions: {positions:?}");
    let (velocities, changes) = (numbers(&page, "V     "), numbers(&page, "α     "));
    assert!((0..11).all(|k| positions[k] + 2 * velocities[k] + changes[k] == positions[k + 1]), "rule 1");
}

/// The swing list of the example is one, and leaves what the page says.
#[test]
fn the_swing_list_leaves_what_is_said() {
    let list = [125, 0, 0, -75, 0, 0, 45, 0, 0, -27, 0, 0];
    assert!(
        words_of_page().contains("125 0 0 −75 0 0 45 0 0 −27 0 0")
            && words_of_page().contains("and it is −3, where 5.1 allows 11 × 125")
    );
    assert!((0..9).all(|i| 160 * list[i + 3] + 96 * list[i] == 0));
    let plan = Job::earliest().with_axis(0, example()).plan().expect("the worked example");
    let accelerations: Vec<i64> = plan.rows().map(|row| row.cells()[2]).collect();
    let change = |k: usize| accelerations[k] - if k == 0 { 0 } else { accelerations[k - 1] };
    assert_eq!((0..=11).map(|k| change(k) * list[11 - k]).sum::<i64>(), -3);
}

/// The examples of damping as measured, of rounding and of accelerating targets.
#[test]
fn examples_of_damping_and_cells_are_the_planner_s() {
    assert_eq!(Damping::Peaks { first: 97.0, second: 31.0 }.weight(), Some(61));
    let left = Job::arriving_at(4).with_axis(0, field_axis(Target::still(-1))).plan().expect("C to the left");
    let column = |plan: &Plan, quantity: usize| -> Vec<i64> { plan.rows().map(|row| row.cells()[quantity]).collect() };
    assert_eq!(column(&left, 0), [0, -43, -128, -213, -256]);
    assert_eq!(column(&left, 1), [0, -85, -85, -86, 0]);
    let target = Target::Moving(State { position: 0, velocity: 0, acceleration: 1, tick: 20 });
    let axis = Axis { half_period: 2, damping: Damping::Weight(100), ..field_axis(target) };
    let plan = Job::arriving_at(20).with_axis(0, axis).plan().expect("an accelerating target");
    let row = |tick: u32| plan.row(tick).expect("a row").cells().to_vec();
    assert_eq!([row(0), row(1), row(2)].concat(), [0, 0, 11, 5, 11, 0, 16, 11, 7]);
    assert_eq!([row(18), row(19), row(20)].concat(), [148, -183, 127, 28, -56, 56, 0, 0, 256]);
    assert!(
        axis.start == RestPoint { position: 0, velocity: 0 }
            && words_of_page().contains("148 −183 127, 28 −56 56, 0 0 256")
    );
}

/// The examples of positions past 28 bits, of a second sway and of raises.
#[test]
fn examples_of_words_and_raises_are_the_planner_s() {
    let page = words_of_page();
    let pairs =
        "(high, low) = (0, 2²⁷) passes, (0, 2²⁷ − 1) is 14, (−1, 2²⁷ − 1) passes, (−1, 2²⁷) is 14, (64, 0) and \
         (−65, 0) are 14.";
    assert!(page.contains(pairs));
    for (high, low, passes) in [
        (0, 1 << 27, true),
        (0, (1 << 27) - 1, false),
        (-1, (1 << 27) - 1, true),
        (-1, 1 << 27, false),
        (64, 0, false),
        (-65, 0, false),
    ] {
        let word = |kind: u32, payload: i32| kind << 28 | payload as u32 & 0x0FFF_FFFF;
        let mut words = CASE_C_WORDS.to_vec();
        words.splice(8..9, [word(14, high), word(9, low)]);
        words.splice(2..3, [word(14, high), word(3, low)]);
        let answer = plan_words(&words, &mut [0; 15]).map(|accepted| accepted.arrival());
        assert_eq!(answer, if passes { Ok(4) } else { Err(Refusal::LongPosition { index: 2 }) }, "{high} {low}");
    }

    let pole = Axis { half_period: 1, damping: Damping::Weight(100), ..field_axis(Target::still(1)) };
    let jointed = Axis { second_half_period: Some(2), ..pole };
    let plan = Job::earliest().with_axis(0, jointed).plan().expect("a pole with a joint");
    let row =
        |row: polgamir::Row| row.cells().iter().map(i64::to_string).collect::<Vec<_>>().join(" ").replace('-', "−");
    let rows: Vec<String> = plan.rows().map(row).collect();
    assert!(page.contains(&format!("arrival {}, rows {}.", plan.arrival(), rows.join(", "))), "{rows:?}");

    let raises = |asked: u32, axis: Axis| -> Vec<(Limit, u32)> {
        let raises = Job::arriving_at(asked).with_axis(0, axis).raises().of_axis(0);
        raises.iter().map(|raise| (raise.limit, raise.by)).collect()
    };
    let to = |speed_limit, position| Axis { speed_limit, ..field_axis(Target::still(position)) };
    assert_eq!(raises(3, to(10, 4)), [(Limit::Acceleration, 1)]);
    assert_eq!(raises(6, to(2, 9)), [(Limit::Acceleration, 1), (Limit::Speed, 1)]);
    let moving = Axis { start: RestPoint { position: 0, velocity: 2 }, ..to(3, 22) };
    assert_eq!(raises(8, moving), [(Limit::Speed, 1), (Limit::Acceleration, 2)]);
    assert_eq!(raises(3, Axis { half_period: 3, ..to(10, 4) }), []);
}

/// What is said of a target that grows too fast, of searches where nothing is
/// reached, and of rows backwards.
#[test]
fn examples_of_reach_and_search_are_the_planner_s() {
    let target = Target::Moving(State { position: 8, velocity: -1, acceleration: 1, tick: 0 });
    let met = |tick: &u32| Job::arriving_at(*tick).with_axis(0, field_axis(target)).arrival_found().is_ok();
    assert_eq!((1..=4096).filter(met).collect::<Vec<u32>>(), [9, 10, 11]);
    assert!(words_of_page().contains("is met at ticks 9, 10 and 11 only"));
    let nowhere = Job::earliest().with_axis(0, Axis { speed_limit: 1, ..field_axis(Target::still(100_000_000)) });
    let reports =
        [(4096, 1), (4096, 0), (1, 4095)].map(|(first, budget)| nowhere.search(first, budget).expect("a report"));
    let told = reports.map(|searched| (searched.report, searched.tried));
    let spent = Report::Spent { next: 4096 };
    assert_eq!(told, [(Report::None, 1), (spent, 0), (spent, 4095)]);
    let backwards =
        Job::arriving_at(4).with_axis(0, field_axis(Target::still(1))).plan_backwards().expect("C backwards");
    assert_eq!(backwards.cells()[..6], [256, 0, 0, 214, 85, -85]);
}

/// Sections and their parts are numbered without a gap, each link leads to a
/// heading, and every picture is there.
#[test]
fn sections_are_numbered() {
    let page = page();
    let numbered =
        page.lines().filter_map(|line| line.strip_prefix("## ")).map(|line| line.split(' ').next().unwrap_or_default());
    let numbered: Vec<usize> = numbered.map(|number| number.parse().expect("a numbered section")).collect();
    assert!(numbered.iter().copied().eq(1..=numbered.len()) && numbered.len() >= 10, "{numbered:?}");
    for section in numbered {
        let parts = page.lines().filter_map(|line| line.strip_prefix(&format!("### {section}.")));
        let parts: Vec<usize> = parts
            .map(|line| line.split(' ').next().and_then(|part| part.parse().ok()).expect("a numbered part"))
            .collect();
        assert!(parts.iter().copied().eq(1..=parts.len()), "{section}: {parts:?}");
    }
    for link in page.split("](").skip(1).filter_map(|rest| rest.split(')').next()) {
        match link.strip_prefix('#') {
            Some(anchor) => {
                let anchors = page.lines().filter(|line| line.starts_with('#')).map(|line| {
                    let name = line.trim_start_matches('#').trim().to_lowercase();
                    name.replace([',', '\'', '.'], "").replace(' ', "-")
                });
                assert!(anchors.into_iter().any(|name| name == anchor), "{anchor}");
            }
            None => assert!(folder("docs").join(link).exists(), "{link}"),
        }
    }
}

/// The files of a folder and of those within it that end in one of some endings. What `rt` makes
/// stands in folders `out`.
fn files_of(folder: &Path, endings: &[&str]) -> Vec<PathBuf> {
    let mut files = Vec::new();
    for entry in fs::read_dir(folder).expect("a folder").map(|entry| entry.expect("an entry").path()) {
        match entry.extension().and_then(|ending| ending.to_str()) {
            _ if entry.ends_with("out") => {}
            _ if entry.is_dir() => files.extend(files_of(&entry, endings)),
            Some(ending) if endings.contains(&ending) => files.push(entry),
            _ => {}
        }
    }
    files
}

/// Every file of definitions but the contents of a folder is named on the page; files that METHOD
/// and BUYERS name are there.
#[test]
fn definitions_and_sections_name_each_other() {
    let page = page();
    let mut definitions = files_of(&folder("crates/model/specs"), &["antt"]);
    definitions.extend(files_of(&folder("crates/theorems/specs"), &["antt"]));
    for file in definitions {
        let name = file.file_name().and_then(|name| name.to_str()).expect("a name").to_string();
        let is_contents = name == "Lib.antt" || file.with_extension("").is_dir();
        assert!(is_contents || page.contains(&format!("{name}`")), "{name}");
    }
    for page in [page, fs::read_to_string(folder("docs").join("BUYERS.md")).expect("docs/BUYERS.md")] {
        for path in page.split('`').filter(|text| text.starts_with("crates/") && text.contains('.')) {
            assert!(path.starts_with("crates/NAME/") || folder(path).exists(), "{path}");
        }
    }
}

/// Sections and parts of sections that are cited are there.
#[test]
fn cited_sections_are_there() {
    let page = page();
    let is_there = |number: &str| {
        let heading = if number.contains('.') { format!("\n### {number} ") } else { format!("\n## {number} ") };
        page.contains(&heading)
    };
    let mut count = 0;
    for file in files_of(&folder("crates"), &["antt", "rt"]) {
        let text = fs::read_to_string(&file).expect("a source");
        let text: Vec<&str> = text.split_whitespace().filter(|word| !["--", "//"].contains(word)).collect();
        for cited in text.join(" ").split("docs/METHOD.md, ").skip(1) {
            for number in numbers_cited(cited) {
                let begin: String = cited.chars().take(60).collect();
                assert!(is_there(&number), "{}: {number} of '{begin}'", file.display());
                count += 1;
            }
        }
    }
    assert!(count > 50, "{count}");
}

/// The numbers at the head of a citation, as in 'section 6', '3.7' and 'sections 6, 6.3 and 2.5';
/// none where the whole page is cited.
fn numbers_cited(cited: &str) -> Vec<String> {
    let several = cited.strip_prefix("sections ");
    let cited = several.or(cited.strip_prefix("section ")).unwrap_or(cited);
    let is_number = |word: &&str| word.starts_with(|c: char| c.is_ascii_digit());
    let words = cited.split_whitespace().filter(|word| *word != "and").take_while(is_number);
    let numbers = words.map(|word| {
        let number: String = word.chars().take_while(|c| c.is_ascii_digit() || *c == '.').collect();
        number.trim_end_matches('.').to_string()
    });
    numbers.take(if several.is_some() { usize::MAX } else { 1 }).collect()
}

/// Every name that the glossary gives for a word stands in the code or in the definitions.
#[test]
fn names_of_the_glossary_are_there() {
    let page = page();
    let glossary = page.split("\n## 10 Glossary\n").nth(1).expect("a glossary");
    let rows: Vec<Vec<&str>> = glossary
        .lines()
        .filter(|line| line.starts_with("| ") && line.matches('|').count() == 5)
        .map(|line| line.trim_matches('|').split('|').collect())
        .collect();
    let sources = files_of(&folder("crates"), &["antt", "rt"]);
    let names: HashSet<String> = sources
        .iter()
        .flat_map(|file| {
            let text = fs::read_to_string(file).expect("a source");
            let words = text.split(|c: char| !c.is_alphanumeric() && c != '_').map(str::to_string);
            words.collect::<Vec<_>>()
        })
        .collect();
    let told: Vec<&str> = rows.iter().skip(1).flat_map(|row| row[3].split('`').skip(1).step_by(2)).collect();
    let missing: Vec<&&str> = told.iter().filter(|name| !names.contains(**name)).collect();
    assert!(missing.is_empty() && told.len() > 100, "{} names, missing {missing:?}", told.len());
}

/// The rows of a page's table of refusals: number, named case, place, and what else is said.
fn refusals_of(page: &str, columns: usize) -> Vec<Vec<String>> {
    let rows = page.lines().filter(|line| line.starts_with("| ") && line.matches('|').count() == columns + 1);
    let rows = rows.map(|line| line.trim_matches('|').split('|').map(|cell| cell.trim().to_string()).collect());
    let numbered = rows.filter(|row: &Vec<String>| row[0].parse::<u32>().is_ok());
    numbered.map(|row| row[..4].to_vec()).collect()
}

/// This page has the one list of refusals, in checking order, which is the header's too; the README
/// links to it and has none of its own.
#[test]
fn refusals_are_told_once() {
    let readme = fs::read_to_string(folder("README.md")).expect("the README");
    assert!(readme.contains("docs/METHOD.md#72-the-refusals-in-checking-order"));
    assert_eq!(refusals_of(&readme, 4), Vec::<Vec<String>>::new());
    let refusals = refusals_of(&page(), 5);
    let numbers: Vec<&str> = refusals.iter().map(|row| row[0].as_str()).collect();
    assert_eq!(numbers.join(" "), "11 1 2 14 3 4 12 5 15 6 16 17 13 18 8 9 10");
    assert_eq!(of_header(), refusals.iter().map(|row| (row[0].clone(), sentence(row))).collect::<Vec<_>>());
}

/// The numbers of the header, each with the sentence that stands beside it.
fn of_header() -> Vec<(String, String)> {
    let header = fs::read_to_string(folder("include").join("polgamir.h")).expect("the header");
    let members =
        header.split_once("enum polgamir_number {").expect("the numbers").1.split_once("};").expect("their end").0;
    let refused = members.split("POLGAMIR_REFUSED_").skip(1).map(|member| {
        let number = member.split_once(" = ").expect("a number").1;
        let digits = number.chars().take_while(char::is_ascii_digit).collect();
        let beside = number.split_once("/*").expect("a sentence").1.split_once("*/").expect("its end").0;
        let lines = beside.lines().map(|line| line.trim_start().trim_start_matches("* "));
        (digits, lines.collect::<Vec<_>>().join(" ").trim().to_lowercase())
    });
    refused.collect()
}

/// A row of the list as the header says it: the named case, the place where it is not 0, and what
/// else is said.
fn sentence(row: &[String]) -> String {
    let place = if row[2] == "0" { String::new() } else { format!(" place: {}.", row[2]) };
    let also = if row[3].is_empty() { String::new() } else { format!(" {}.", row[3]) };
    format!("{}.{place}{also}", row[1]).replace('−', "-").replace('×', "*").to_lowercase()
}

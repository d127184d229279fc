//! The table program prints what the reference prints. `tools/proved table` builds it to
//! crates/table/out/table; the variable POLGAMIR_TABLE names another place.

use std::fs::OpenOptions;
use std::io::Write;
use std::path::{Path, PathBuf};
use std::process::{Command, Output, Stdio};
use std::thread::sleep;
use std::time::Duration;

use outside::jobs::{self, Reach};
use outside::random::Random;
use outside::reference::{self, Axis, Damping, Job, Target};

fn program() -> PathBuf {
    match std::env::var_os("POLGAMIR_TABLE") {
        Some(named) => PathBuf::from(named),
        None => Path::new(env!("CARGO_MANIFEST_DIR")).join("../../crates/table/out/table"),
    }
}

/// Runs the program on a pipe that is written to in parts, each long after the last.
fn run(parts: &[&[u8]], stdout: Stdio) -> Output {
    let mut child = Command::new(program())
        .stdin(Stdio::piped())
        .stdout(stdout)
        .stderr(Stdio::piped())
        .spawn()
        .expect("the table program is there: run `tools/proved table` first");
    let mut stdin = child.stdin.take().unwrap();
    for (n, part) in parts.iter().enumerate() {
        if n > 0 {
            sleep(Duration::from_millis(200));
        }
        // The program reads 512 bytes at most, so that the rest may find nobody.
        let _ = stdin.write_all(part);
    }
    drop(stdin);
    child.wait_with_output().unwrap()
}

/// What is printed, with nothing on standard error and status 0, after a table as after a refusal.
fn printed_in_parts(parts: &[&[u8]]) -> String {
    let output = run(parts, Stdio::piped());
    assert!(output.status.success(), "{:?} {parts:?}", output.status);
    assert_eq!(String::from_utf8_lossy(&output.stderr), "", "{parts:?}");
    String::from_utf8(output.stdout).unwrap()
}

fn printed(input: &[u8]) -> String {
    printed_in_parts(&[input])
}

fn bytes(words: &[u32]) -> Vec<u8> {
    words.iter().flat_map(|word| word.to_le_bytes()).collect()
}

#[test]
fn prints_what_the_reference_prints() {
    let mut random = Random::new(21);
    let mut accepted = 0;
    let mut long_searches = 3;
    for n in 0..400 {
        let reach = if n % 4 == 0 { Reach::Quick } else { Reach::Near };
        let job = jobs::job(&mut random, reach);
        let words = match random.below(3) {
            0 => jobs::damaged_words(&mut random, &jobs::words(&job)),
            _ => jobs::words(&job),
        };
        if reference::decode(&words).is_ok_and(|job| job.searches_past(200)) {
            if long_searches == 0 {
                continue;
            }
            long_searches -= 1;
        }
        let mut input = bytes(&words);
        match random.below(12) {
            0 => input.extend(vec![0xF0; random.below(3) + 1]),
            1 => drop(input.pop()),
            2 => input.extend(vec![0; 600]),
            _ => (),
        }
        let want = reference::printed(&input);
        assert_eq!(printed(&input), want, "{words:08X?}");
        accepted += usize::from(want.starts_with("arrival"));
    }
    assert!(accepted > 100, "{accepted}");
}

#[test]
fn a_table_that_just_fits_and_one_that_does_not() {
    // One axis: 3 × (N + 1) cells in 8,192 gives N up to 2,729.
    for asked in [2_729, 2_730, 4_096] {
        let mut words = jobs::CASE_C;
        words[1] = 0x2000_0000 + asked;
        assert_eq!(printed(&bytes(&words)), reference::printed(&bytes(&words)));
    }
}

/// The job of the most words: six axes after moving targets, with long
/// positions and second half periods.
fn longest() -> Vec<u8> {
    let axis = |i: i64| Axis {
        start_position: (i - 3) << 32,
        start_velocity: i,
        speed_limit: 20,
        acceleration_limit: 4,
        half_period: i as u32,
        damping: Damping::Weight(128 - i as u32),
        second: Some(6 - i as u32),
        target: Target::Moving { position: ((i - 3) << 32) - 9, velocity: -i, acceleration: 0, tick: 3 },
    };
    let mut job = Job { mask: 63, asked: 30, axes: [0, 1, 2, 3, 4, 5].map(axis), windows: None };
    // Axis 3 would start about 0.
    job.axes[3].start_position = 1 << 27;
    job.axes[3].target = Target::Moving { position: (1 << 27) + 4, velocity: 0, acceleration: 0, tick: -3 };
    bytes(&jobs::words(&job))
}

/// A long job is read whole, and left-over bytes are found past it, up to the 512th and beyond.
#[test]
fn input_of_many_bytes() {
    let whole = longest();
    assert_eq!(whole.len(), 324);
    assert!(printed(&whole).starts_with("arrival 30\n"));
    for count in (250..whole.len()).chain([509, 510, 511, 512, 513, 516, 600]) {
        let mut input = whole.clone();
        input.resize(count, 0xF0);
        assert_eq!(printed(&input), reference::printed(&input), "{count}");
    }
}

#[test]
fn input_of_few_bytes() {
    for input in
        [&[][..], &[1], &[1, 0, 0], &[1, 0, 0, 0x10], &[1, 0, 0, 0x10, 9], &[64, 0, 0, 0x10], &[63, 0, 0, 0x10]]
    {
        assert_eq!(printed(input), reference::printed(input), "{input:?}");
    }
}

/// Case C's table and case E's refusal, as the method prints them.
const TABLE_C: &str = "arrival 4\n0 0 0 86\n1 43 86 -1\n2 129 85 0\n3 214 85 -85\n4 256 0 0\n";
const REFUSAL_E: &str = "refused 8 place 0 axes 1 arrival 0\n";

#[test]
fn a_table_and_a_refusal() {
    assert_eq!(printed(&bytes(&jobs::CASE_C)), TABLE_C);
    let mut case_e = jobs::CASE_C;
    case_e[1] = 0x2000_0003;
    case_e[8] = 0x9000_0004;
    assert_eq!(printed(&bytes(&case_e)), REFUSAL_E);
}

/// A pipe may hand the input over in any parts, also in the middle of a word.
#[test]
fn input_in_parts() {
    let case_c = bytes(&jobs::CASE_C);
    for at in [1, 20, 22, 43] {
        assert_eq!(printed_in_parts(&[&case_c[..at], &case_c[at..]]), TABLE_C, "{at}");
    }
    let whole = longest();
    let parts: Vec<&[u8]> = whole.chunks(100).collect();
    assert_eq!(printed_in_parts(&parts), reference::printed(&whole));
}

/// Where nothing can be written the program says so, and nothing else.
#[test]
fn output_that_cannot_be_written() {
    let Ok(full) = OpenOptions::new().write(true).open("/dev/full") else {
        println!("left out: output that cannot be written, for there is no /dev/full");
        return;
    };
    let output = run(&[&bytes(&jobs::CASE_C)], Stdio::from(full));
    assert!(output.status.success(), "{:?}", output.status);
    assert_eq!(String::from_utf8(output.stderr).unwrap(), "table: cannot write\n");
}

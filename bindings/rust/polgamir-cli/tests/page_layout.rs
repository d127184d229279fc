//! The report as a browser lays it out: on a laptop's screen, on a phone's, and printed on A4.
//! Where there is no Chromium the tests say so and look at nothing.

mod common;

use std::fs;
use std::process::Command;

use common::command::{run_with, scratch, sheet};

/// Runs a headless Chromium with a folder of its own, where there is one.
fn browser(folder: &str, arguments: &[&str]) -> Option<String> {
    let known = ["chromium", "chromium-browser", "google-chrome"];
    let folder = format!("--user-data-dir={}", scratch(folder));
    let usual = ["--headless=new", "--no-sandbox", "--disable-gpu", "--virtual-time-budget=5000", &folder];
    let outputs = known.iter().filter_map(|name| Command::new(name).args(usual).args(arguments).output().ok());
    let said = outputs.map(|output| String::from_utf8_lossy(&output.stdout).into_owned()).next();
    if said.is_none() {
        eprintln!("no Chromium is installed: the layout of the report is not looked at");
    }
    said
}

/// Writes the report of a sheet to a file of its own; the job may be refused.
fn report(name: &str, text: &str) -> String {
    let file = scratch(&format!("layout-{name}.html"));
    let output = run_with(&["report", "-", "-o", &file], text.as_bytes());
    assert!(matches!(output.status.code(), Some(0 | 1)), "{name}");
    file
}

/// The text of a sheet of the repository.
fn text_of(name: &str) -> String {
    fs::read_to_string(sheet(name)).expect("a sheet")
}

/// A tour of 64 stops on two axes.
fn many_stops() -> String {
    let before = text_of("plot-of-stems").split("#     pan").next().unwrap_or_default().to_string();
    let stop = |stop: i64| format!("stop {} {} dwell {}\n", stop * 977 % 4000, stop * 331 % 900 - 450, stop % 4 * 20);
    format!("tick 0.02\nunit 0.01 degree\n{before}") + &(0..64).map(stop).collect::<String>()
}

/// Six axes whose names are long, on poles with joints.
fn jointed_axes() -> String {
    let text = text_of("six-axes").replace("target acceleration  1", "target acceleration  0");
    let text = text.replace("\n  speed limit", "\n  second half period   7\n  speed limit");
    let text = text.replace("weight               120", "peaks 41.5 36.2");
    text.replace("axis 0 pan", "axis 0 pan of the northern mast, above the joint")
}

fn sheets() -> Vec<(&'static str, String)> {
    vec![
        ("two", text_of("pan-tilt-stem")),
        ("six", text_of("six-axes")),
        ("jointed", jointed_axes()),
        ("refused", text_of("too-soon")),
        ("tour", many_stops()),
    ]
}

/// What pages measure in frames of widths: how wide the content of each is, and the
/// size of its smallest drawn letters.
fn measured(frames: &[(String, u32)]) -> Option<Vec<(f64, f64)>> {
    let frame = |(page, width): &(String, u32)| {
        let page = fs::read_to_string(page).expect("the page").replace('&', "&amp;").replace('"', "&quot;");
        format!("<iframe width=\"{width}\" height=\"800\" style=\"border:0\" srcdoc=\"{page}\"></iframe>\n")
    };
    let script = "addEventListener('load', () => { let said = 'measured'; for (const frame of \
        document.querySelectorAll('iframe')) { const page = frame.contentDocument; let least = 99; \
        page.querySelectorAll('svg text').forEach(text => { if (text.getClientRects().length) { const drawing = \
        text.ownerSVGElement; least = Math.min(least, drawing.getBoundingClientRect().width / \
        drawing.viewBox.baseVal.width * parseFloat(text.getAttribute('font-size'))); } }); said += ' ' + \
        page.documentElement.scrollWidth + ' ' + least; } document.getElementById('said').textContent = said + ' end'; \
        });";
    let frames: String = frames.iter().map(frame).collect();
    let file = scratch("frames.html");
    let page = format!("<!DOCTYPE html><body><pre id=\"said\"></pre>\n{frames}<script>{script}</script></body>");
    fs::write(&file, page).expect("a file");
    let said = browser("chromium-frames", &["--dump-dom", &format!("file://{file}")])?;
    let numbers =
        said.split("measured ").nth(1).and_then(|rest| rest.split(" end<").next()).expect("what they measure");
    let numbers: Vec<f64> = numbers.split(' ').map(|number| number.parse().expect("a number")).collect();
    Some(numbers.chunks_exact(2).map(|pair| (pair[0], pair[1])).collect())
}

/// Nothing is wider than the screen, and every letter of a picture can be read.
#[test]
fn nothing_is_wider_than_the_screen() {
    let pages = sheets().into_iter().map(|(name, text)| report(name, &text));
    let frames: Vec<(String, u32)> = pages.flat_map(|page| [(page.clone(), 1366), (page, 390)]).collect();
    for ((page, width), (wide, least)) in frames.iter().zip(measured(&frames).unwrap_or_default()) {
        assert!(wide <= f64::from(*width), "{page} at {width}: {wide}");
        assert!(least >= 9.5, "{page} at {width}: letters of {least}");
    }
}

/// Two axes take at most four pages of A4, six at most eight.
#[test]
fn a_report_takes_few_pages() {
    for (name, text, most) in [
        ("two", text_of("pan-tilt-stem"), 4),
        ("degrees", text_of("stem-in-degrees"), 4),
        ("six", text_of("six-axes"), 8),
        ("jointed", jointed_axes(), 8),
        ("refused", text_of("too-soon"), 1),
    ] {
        let (page, printed) = (report(&format!("paper-{name}"), &text), scratch(&format!("layout-{name}.pdf")));
        let _ = fs::remove_file(&printed);
        let file = format!("file://{page}");
        if browser("chromium-paper", &["--no-pdf-header-footer", &format!("--print-to-pdf={printed}"), &file]).is_none()
        {
            return;
        }
        let pdf = fs::read(&printed).expect("the printed page");
        let pages = String::from_utf8_lossy(&pdf).matches("/Type /Page\n").count();
        assert!((1..=most).contains(&pages), "{name}: {pages} pages");
    }
}

/// An axis is one block that a printer does not break, with all its pictures and numbers.
#[test]
fn an_axis_is_not_broken() {
    let page = fs::read_to_string(report("blocks", &text_of("six-axes"))).expect("the page");
    assert_eq!(page.matches("<div class=\"axis\">").count(), 6);
    let avoids = page.lines().find(|line| line.contains(".axis") && line.contains("break-inside: avoid"));
    assert!(avoids.is_some());
}

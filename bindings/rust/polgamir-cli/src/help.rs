//! The help: a page for each command, of one screen of 24 lines by 80 columns.

/// A page of the help.
#[derive(Debug, Clone, Copy, PartialEq, Eq)]
pub enum Page {
    /// What the commands are.
    All,
    /// `plan`.
    Plan,
    /// `tour`.
    Tour,
    /// `report`.
    Report,
    /// `plot`.
    Plot,
    /// `words`.
    Words,
    /// `show`.
    Show,
    /// `convert`.
    Convert,
    /// `verify`.
    Verify,
    /// `certify`.
    Certify,
    /// `tap`.
    Tap,
}

impl Page {
    /// Every command's page, in the order in which the first page lists them.
    pub const COMMANDS: [Page; 10] = [
        Page::Plan,
        Page::Tour,
        Page::Report,
        Page::Plot,
        Page::Tap,
        Page::Words,
        Page::Show,
        Page::Convert,
        Page::Verify,
        Page::Certify,
    ];

    /// The page of a command.
    pub fn of(command: &str) -> Option<Page> {
        Page::COMMANDS.into_iter().find(|page| page.command() == command)
    }

    /// The command that it is about; nothing for the first page.
    pub const fn command(self) -> &'static str {
        match self {
            Page::All => "",
            Page::Plan => "plan",
            Page::Tour => "tour",
            Page::Report => "report",
            Page::Plot => "plot",
            Page::Words => "words",
            Page::Show => "show",
            Page::Convert => "convert",
            Page::Verify => "verify",
            Page::Certify => "certify",
            Page::Tap => "tap",
        }
    }

    /// The commands as words of a sentence.
    pub fn commands() -> String {
        let [before @ .., last] = Page::COMMANDS.map(Page::command);
        format!("{} or {last}", before.join(", "))
    }

    /// What it says.
    pub const fn text(self) -> &'static str {
        match self {
            Page::All => ALL,
            Page::Plan => PLAN,
            Page::Tour => TOUR,
            Page::Report => REPORT,
            Page::Plot => PLOT,
            Page::Words => WORDS,
            Page::Show => SHOW,
            Page::Convert => CONVERT,
            Page::Verify => VERIFY,
            Page::Certify => CERTIFY,
            Page::Tap => TAP,
        }
    }
}

const ALL: &str = "\
Motion tables for a head on a swaying pole, planned by a proved library.

Usage: polgamir COMMAND [OPTIONS] FILE

  plan     plan a job: the arrival, a summary and the table, or CSV, JSON, C
  tour     plan a tour of stops: each arrival, the tables, or CSV, JSON, C
  report   write a page about a job or a tour, for a browser and for A4
  plot     draw a job or a tour
  tap      from a recorded tap of the pole to the lines of a sheet
  words    write the job words of a sheet
  show     print the sheet of job words
  convert  write old job words again, with moving targets for flying ones
  verify   hold a table, or a certificate, to its job
  certify  write a job's table with all that it takes to check it, in one file

`polgamir COMMAND --help` tells more of a command. `--version` says the version.

FILE is a set-up sheet (docs/SHEET.md) or a file of job words; `-` is standard
input. `-o FILE` writes to a file, `-o -` to standard output. After `--`
everything is a file's name. A refusal is always printed, and `-o` leaves it in
the file too, so that no older answer stands there.

Exit status: 0 done; 1 the planner refuses the job or tour; 2 wrong input, wrong
usage, or a file that cannot be read; 3 the output cannot be written.
";

const PLAN: &str = "\
Plans a job: the arrival, how far each axis goes, how near it comes to its
limits, and the first and last rows of the table.

Usage: polgamir plan [--all | --rows A..B] [--units | --plain] [-o FILE] JOB
       polgamir plan --csv | --json [--units] [--rows A..B] [-o FILE] JOB
       polgamir plan --c-array [-o FILE] JOB

A row has for each axis position, velocity and acceleration, in fine steps of
1/256 unit.

  --all          print every row
  --rows A..B    print the rows of ticks A to B, planned as a part: none before
                 them is worked out, and rows past the arrival are left out
  --units        print units; where the sheet says what a unit or a tick stands
                 for, print that
  --plain        print as the table program does: cells, or the refusal's line
  --csv          write a line for each tick, with commas between the numbers
  --json         write an object: the arrival, and each axis's numbers as lists
  --c-array      write the source of a C array that is the library's table
  --cells COUNT  lend so many cells, up to 73746; else there are enough
  -o FILE        write to a file

Jerk and end stops are not limited: compare the least and greatest positions.
";

const TOUR: &str = "\
Plans a tour of stops: the total and each stop's arrival, in ticks from the
tour's start.

Usage: polgamir tour [--tables] [--units | --plain] [-o FILE] TOUR
       polgamir tour --csv | --json [--units] [-o FILE] TOUR
       polgamir tour --c-array [-o FILE] TOUR

TOUR is a sheet with `stop` lines. Each leg starts at rest where the last one
ended, after its dwell, and arrives as early as it can.

  --tables   print also the table of each leg, whose ticks count from its start
  --units    print times, positions and tables in what the sheet says that a
             tick and a unit stand for
  --plain    print numbers alone: the total, then each stop and its arrival
  --csv      write a line for each row of each leg, with the tick of the tour
  --json     write an object: the stops, and for each leg its table
  --c-array  write the source of C arrays: one for each leg, and a list of them
  -o FILE    write to a file
";

const REPORT: &str = "\
Writes one HTML page about a job or a tour. It opens in any browser without a
network, reads on a phone and prints on A4.

Usage: polgamir report [--tap [AXIS=]RECORD.csv].. -o FILE.html JOB | TOUR

The page has the answer, the pictures, and
  - how much sway is left on the pole as entered, and where half period or
    damping was measured wrongly: simulated, beside the proved bound;
  - what the blend costs, what sets the arrival, and why it is not a tick
    earlier;
  - the least and greatest position of each axis, and how near it comes to its
    limits; the worst carry miss;
  - the sheet as entered.
Of a tour it tells the same of all legs together. Of a refused job or tour the
page says the refusal.

  --tap [AXIS=]RECORD  say what a recorded tap makes of the plan: its misfit and
                       the sway that it leaves at most; of one axis, by number
                       or name, or of all. --rate and --column as for `tap`
  -o FILE              write to a file; `-o -` is standard output
";

const PLOT: &str = "\
Draws a job or a tour as an SVG picture.

Usage: polgamir plot -o FILE.svg JOB | TOUR

Of a job it draws for each axis position, velocity and acceleration with their
limits and the target's, and the sway of the pole, at each of its rates where it
has two, beside the sway that the same job would leave without the blend.
Windows are shaded. Of a tour it draws the timeline. Where the sheet says what a
tick is, time is in seconds.

A sway is in proportion to a real pole's; it is not its tip in degrees.

  -o FILE  write to a file; `-o -` is standard output
";

const TAP: &str = "\
Fits a recorded tap of the pole and prints the lines of a sheet: half period and
shrink ratio with their spread, of one rate or of two.

Usage: polgamir tap [--rate HZ] [--column N] [-o FILE.svg] RECORD

RECORD has a line for each sample, its time in seconds and its deflection, with
commas, semicolons, tabs or spaces between them: a log of a phone or a sensor,
of any sign, offset or drift. A heading may say ms, us or ns.

  --rate HZ     the samples of a second, where there are deflections alone
  --column N    the column of the deflections, from 1; else the one that varies
                most
  -o FILE.svg   draw the record with the fitted swing

Comments say which swings were used, and what was left out and why. The truth
lies within the spread in 95 of 100.
";

const WORDS: &str = "\
Writes the words of a job, in hexadecimal.

Usage: polgamir words [--bytes] [-o FILE] JOB

Words hold the weight of damping as measured; the command says which. A job with
windows has no words.

  --bytes  write bytes, each word little-endian, as the table program reads them
  -o FILE  write to a file
";

const SHOW: &str = "\
Reads job words, hexadecimal text or bytes, and prints their set-up sheet.

Usage: polgamir show [--bytes | --hex] [-o FILE] WORDS

  --bytes  take the file as bytes
  --hex    take the file as text
  -o FILE  write to a file
";

const CONVERT: &str = "\
Writes the words of an old job whose fixed targets fly, with moving targets in
their place.

Usage: polgamir convert [--bytes] [-o FILE] JOB

The arrival is asked for; a job that seeks the earliest is refused with 17.
Other jobs stay as they are.

  --bytes  write bytes, each word little-endian
  -o FILE  write to a file
";

const VERIFY: &str = "\
Says whether a table is the table of a job: planned anew and compared cell for
cell, with the checks that need no planner.

Usage: polgamir verify [--backwards] [--first ROW] JOB TABLE...
       polgamir verify CERTIFICATE

TABLE is what `polgamir plan` writes with --csv, --json or --c-array, or the
cells as bytes, 64-bit numbers with the low byte first. A table in parts is
given as several files, in order.

  --backwards  the arrival's row comes first
  --first ROW  the table is a part by itself, which begins with this row

Exit status: 0 it is the job's table; 1 it is not, and the first cell that
differs is named; 2 a file cannot be read.
";

const CERTIFY: &str = "\
Writes one file with a job's sheet, words, answer, table and checks, and what
the command was built from: for a quality folder.

Usage: polgamir certify [-o FILE] JOB

`polgamir verify FILE` plans its sheet anew and compares all of it. The file
carries its own SHA-256, so that an edit or a cut is seen. It is no signature.

  -o FILE  write to a file
";

#[cfg(test)]
mod tests {
    use super::*;

    /// Every page fits a screen of 24 lines by 80 columns, and names its command.
    #[test]
    fn pages_fit_a_screen() {
        for page in [Page::All].into_iter().chain(Page::COMMANDS) {
            let text = page.text();
            assert!(text.lines().count() <= 24, "{page:?}: {} lines", text.lines().count());
            assert!(text.lines().all(|line| line.chars().count() <= 80), "{page:?}");
            assert!(text.contains(&format!("Usage: polgamir {}", page.command())), "{page:?}");
        }
    }

    /// The first page lists every command, in order.
    #[test]
    fn every_command_is_listed() {
        let listed: Vec<&str> = ALL.lines().filter_map(|line| line.strip_prefix("  ")?.split(' ').next()).collect();
        assert_eq!(listed, Page::COMMANDS.map(Page::command));
    }
}

//! Times every call of the player's library beside the original Rust: one row for each case.
//! `--quick` takes about a minute, `--markdown` writes docs/speed/numbers.md, `--only` and `--case` take the calls and cases named so.

mod allocator;
mod discs;
mod files;
mod goals;
mod hints;
mod kept;
mod limits;
mod lists;
mod merges;
mod plain;
// A call that no case makes stops the build.
#[deny(dead_code)]
#[path = "../../bindings/rust/src/raw.rs"]
mod raw;
mod records;
mod report;
mod rounds;
mod sectors;
mod shelf;
mod sums;
mod tables;
mod views;

use report::Report;
use rounds::Effort;
use std::cell::RefCell;
use std::time::Duration;

#[global_allocator]
static COUNTING: allocator::Counting = allocator::Counting;

fn options() -> Option<Report> {
    let (mut quick, mut markdown, mut only, mut case) = (false, false, String::new(), String::new());
    let mut words = std::env::args().skip(1);
    while let Some(w) = words.next() {
        match w.as_str() {
            "--quick" => quick = true,
            "--markdown" => markdown = true,
            "--only" => only = words.next()?,
            "--case" => case = words.next()?,
            _ => return None,
        }
    }
    let effort = match quick {
        true => Effort { row: Duration::from_millis(300), fewest: 3, most: 61 },
        false => Effort { row: Duration::from_secs(5), fewest: 5, most: 101 },
    };
    Some(Report { effort, markdown, only, case, judged: RefCell::default() })
}

fn main() {
    let Some(report) = options() else {
        eprintln!("bench/run [--quick] [--markdown] [--only CALL] [--case WORDS]");
        std::process::exit(2);
    };
    report.head();
    sectors::rows(&report);
    sums::rows(&report);
    shelf::rows(&report);
    files::rows(&report);
    discs::rows(&report);
    merges::rows(&report);
    hints::rows(&report);
    kept::rows(&report);
    views::rows(&report);
    records::rows(&report);
    report.tail();
}

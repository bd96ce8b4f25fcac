//! The original seek index behind a script of calls: see tests/README.md. The benches use it too.
#![allow(dead_code, deprecated, private_interfaces)]

pub mod calls;
mod damage;
mod disc;
mod drawer;
mod driver;
mod file;
mod generate;
mod lent;
mod rng;
mod script;
mod sectors;
mod sheet;
mod stubs;
mod text;
mod version4;
include!(concat!(env!("OUT_DIR"), "/modules.rs"));

use std::io::{BufRead, BufReader, BufWriter, Write};
use std::process::ExitCode;

pub use error::Slot;
pub use stubs::{audio, error, image, log, toc};
pub use toc::{SectorFormat, Toc};

/// Where a jump to a frame starts, by the original's plan: an LSN.
pub fn jump(ix: &seek::AreaIndex, area: (u64, u64), frame: u32) -> u64 {
    seek::access::jump(ix, area, frame)
}

const USAGE: &str = "\
oracle run [--show] [--large]            answers the script on standard input; --large: over the tables of kinds large, version4 and long
oracle gen [options]                     writes scripts, and on standard error how often each answer occurred
oracle fixed SCRIPT ANSWERS [options]    writes a list of scripts and the file of their answers
oracle sources                           which texts of the original were built: length and FNV-1a
oracle differences PAPER SCRIPT          runs the rows of docs/DIFFERENCES.md; PAPER is that text, SCRIPT names each row too
oracle diff COUNT|SECONDSs REPLAY [options]  runs fresh scripts through both, until the first difference
oracle disc COUNT|SECONDSs PROGRAM [options] runs fresh disc files through the model and PROGRAM (tests/models/disc), until the first difference
oracle drawer COUNT PROGRAM [options]        runs fresh sets of files through the model and PROGRAM (tests/models/drawer), until the first difference
oracle sheet COUNT PROGRAM [options]         runs fresh coverage sheets through the model and PROGRAM (tests/models/sheet), until the first difference
options: --seed N  --kinds load,merge,calls,seams,hints,unrelated,large,lent,names,sectors,version4,long|all  --scripts N  --files N  --small  --only CALL,CALL,..
         --notes (counts by kind of damage)  --counts FILE (diff: tables of the counts)  --unchecked (no answer need occur)
         --shrink SECONDS (30: how long a script that shows a difference is made smaller)
";

/// The words after the command: options by name, the rest in order.
pub struct Arguments {
    pub rest: Vec<String>,
    pub seed: u64,
    pub kinds: Vec<generate::Kind>,
    pub scripts: Option<u32>,
    pub files: Option<u64>,
    pub small: bool,
    /// The calls that scripts have, beside `script` and `area`; all where it is empty.
    pub only: Vec<String>,
    pub show: bool,
    pub notes: bool,
    /// The file that the counts of a comparison go to.
    pub counts: Option<String>,
    pub unchecked: bool,
    /// For how many seconds a script that shows a difference is made smaller.
    pub shrink: u64,
    pub wrong: u32,
}

fn arguments(words: impl Iterator<Item = String>) -> Option<Arguments> {
    let mut a = Arguments {
        rest: Vec::new(),
        seed: 1,
        kinds: generate::kinds("all")?,
        scripts: None,
        files: None,
        small: false,
        only: Vec::new(),
        show: false,
        notes: false,
        counts: None,
        unchecked: false,
        shrink: 30,
        wrong: 0,
    };
    let mut words = words;
    while let Some(w) = words.next() {
        match w.as_str() {
            "--seed" => a.seed = words.next()?.parse().ok()?,
            "--kinds" => {
                a.kinds = generate::kinds(&words.next()?)?;
                if a.kinds.iter().any(|k| k.is_large()) {
                    script::enlarge();
                }
            }
            "--large" => script::enlarge(),
            "--scripts" => a.scripts = Some(words.next()?.parse().ok()?),
            "--files" => a.files = Some(words.next()?.parse().ok()?),
            "--small" => a.small = true,
            "--only" => a.only = words.next()?.split(',').map(str::to_string).collect(),
            "--show" => a.show = true,
            "--notes" => a.notes = true,
            "--counts" => a.counts = Some(words.next()?),
            "--unchecked" => a.unchecked = true,
            "--shrink" => a.shrink = words.next()?.parse().ok()?,
            "--wrong" => a.wrong = words.next()?.parse().ok()?,
            _ if w.starts_with("--") => return None,
            _ => a.rest.push(w),
        }
    }
    Some(a)
}

fn run(a: &Arguments) -> Result<(), String> {
    let mut oracle = script::Oracle::default();
    (oracle.show, oracle.wrong) = (a.show, a.wrong);
    let mut input = BufReader::with_capacity(1 << 20, std::io::stdin().lock());
    let mut output = BufWriter::with_capacity(1 << 20, std::io::stdout().lock());
    let (mut line, mut out, mut number) = (Vec::new(), Vec::new(), 0);
    loop {
        line.clear();
        if input.read_until(b'\n', &mut line).map_err(|e| e.to_string())? == 0 {
            break;
        }
        number += 1;
        let body = line.strip_suffix(b"\n").unwrap_or(&line);
        out.clear();
        if !oracle.line(body, &mut out) {
            output.flush().map_err(|e| e.to_string())?;
            return Err(format!("line {number} is not a line of a script"));
        }
        output.write_all(&out).map_err(|e| e.to_string())?;
    }
    output.flush().map_err(|e| e.to_string())
}

/// The program: words of the command line, an exit status.
pub fn command() -> ExitCode {
    let mut words = std::env::args().skip(1);
    let command = words.next().unwrap_or_default();
    let Some(a) = arguments(words) else {
        eprint!("{USAGE}");
        return ExitCode::from(2);
    };
    let done = match (command.as_str(), a.rest.len()) {
        ("run", 0) => run(&a),
        ("sources", 0) => {
            println!("{}", env!("ORACLE_SOURCES"));
            Ok(())
        }
        ("differences", 2) => seek::access::differences::run(&a.rest[0], &a.rest[1]),
        ("gen", 0) => driver::generate(&a),
        ("fixed", 2) => driver::fixed(&a),
        ("diff", 2) => driver::differences(&a),
        ("disc", 2) => disc::compare(&a),
        ("drawer", 2) => drawer::compare(&a),
        ("sheet", 2) => sheet::compare(&a),
        _ => {
            eprint!("{USAGE}");
            return ExitCode::from(2);
        }
    };
    match done {
        Ok(()) => ExitCode::SUCCESS,
        Err(text) => {
            eprintln!("oracle: {text}");
            ExitCode::FAILURE
        }
    }
}

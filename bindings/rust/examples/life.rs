//! life A B FRAME OUT: a player's life, written from the crate's documentation alone. It loads two list files, merges them, plans a jump and asks for a hint;
//! then it records a simulated disc, absorbs the reading and saves its list.

use seek::{Role, Area, Frame, List, Plan};
use std::{env, fs};

const START: u64 = 1000;
const END: u64 = 1400;

fn open(name: &str) -> Result<List, Box<dyn std::error::Error>> {
    let file = fs::read(name)?;
    Ok(List::load(Role::Workshop, Area::of_file(&file)?, &file, u64::MAX)?)
}

fn jump(list: &List, frame: u32) -> Result<(), seek::Error> {
    if let Plan::At(at) = list.plan(frame)? {
        println!("frame {frame}: sector {}, {} bytes held", at.lsn, at.part.map_or(0, |p| p.bytes.len()));
    }
    let hint = list.hint(frame, frame + 75, 600)?;
    println!("frontier {}, hint {}", list.frontier(), if hint.is_some() { "found" } else { "none" });
    Ok(())
}

fn sector(lsn: u64) -> [u8; 2048] {
    let n = lsn - START;
    let mut s = [0; 2048];
    (s[0], s[3], s[4], s[5]) = (0x24, (n / 75 / 60) as u8, (n / 75 % 60) as u8, (n % 75) as u8);
    s
}

fn record() -> Result<List, seek::Error> {
    let area = Area { slot: 0, channels: 2, key_start: 1000, key_end: 1399, sectors: 1550, start: START, end: END };
    let mut list = List::new(area, 50, 1 << 20, 8, 2048)?;
    let mut recorder = list.recorder(START)?;
    let mut hints = list.hint_recorder()?.expect("spacing and hint limit are not 0");
    for lsn in START..END {
        if recorder.due() == Some(lsn) {
            let number = (lsn - START) as u32;
            let frame = Frame { start: lsn - 40, number, dsd: false, remaining: 3, bytes: &[0; 400] };
            recorder.record(lsn, number, 0, (lsn > START).then_some(frame), &sector(lsn))?;
        }
        hints.see(lsn, &sector(lsn))?;
    }
    recorder.finish((END - START) as u32, 0)?;
    hints.flush()?;
    list.absorb(&mut recorder, Some(1), &[])?;
    list.add_hints(&hints.take()?)?;
    Ok(list)
}

fn main() -> Result<(), Box<dyn std::error::Error>> {
    let words: Vec<String> = env::args().collect();
    let [_, a, b, frame, out] = &words[..] else { return Err("life A B FRAME OUT".into()) };
    let mut own = open(a)?;
    own.merge(Role::Workshop, &open(b)?)?;
    jump(&own, frame.parse()?)?;
    let list = record()?;
    println!("{} checkpoints, {} hints, {}", list.checkpoints(), list.hints(), if list.is_complete() { "complete" } else { "open" });
    fs::write(out, list.save(Role::Workshop)?)?;
    Ok(())
}

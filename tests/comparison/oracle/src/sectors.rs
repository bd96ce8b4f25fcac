//! Change request 4 once more: where the time bytes of a sector lie, or why there are none.

/// Whether there is a first record, its frame number, its offset, and why there is none (1 no frame starts there, 2 bytes are missing);
/// and what it is to be counted as.
pub fn first_bytes(sector: &[u8]) -> ([u64; 4], &'static str) {
    let Some(&header) = sector.first() else { return ([0, 0, 0, 2], "bytes missing, no header byte") };
    let (packets, frames) = (usize::from(header) / 32, usize::from(header) / 4 % 8);
    let end = 2 * packets + 4;
    if frames == 0 {
        return ([0, 0, 0, 1], if sector.len() < end { "no frame, and too short for one" } else { "no frame" });
    }
    if sector.len() < end {
        let name = if sector.len() + 1 == end { "bytes missing, one" } else { "bytes missing" };
        return ([0, 0, 0, 2], name);
    }
    let time = &sector[end - 3..end];
    let number = u64::from(time[0]) * 4500 + u64::from(time[1]) * 75 + u64::from(time[2]);
    let name = if sector.len() == end { "a number, in the last three bytes" } else { "a number" };
    ([1, number, end as u64 - 3, 0], name)
}

//! Numbers, sums and hex in the script's and the answers' text.

/// FNV-1a, 64-bit, over little-endian records.
pub struct Sum(u64);

impl Sum {
    pub fn new() -> Self {
        Sum(0xcbf2_9ce4_8422_2325)
    }

    pub fn bytes(&mut self, bytes: &[u8]) -> &mut Self {
        self.0 = bytes.iter().fold(self.0, |h, &b| (h ^ u64::from(b)).wrapping_mul(0x0100_0000_01b3));
        self
    }

    pub fn u32(&mut self, v: u32) -> &mut Self {
        self.bytes(&v.to_le_bytes())
    }

    pub fn u64(&mut self, v: u64) -> &mut Self {
        self.bytes(&v.to_le_bytes())
    }

    pub fn value(&self) -> u64 {
        self.0
    }
}

pub fn sum_of(bytes: &[u8]) -> u64 {
    Sum::new().bytes(bytes).value()
}

/// ` v`.
pub fn put(out: &mut Vec<u8>, mut v: u64) {
    let mut digits = [0u8; 20];
    let mut at = 20;
    loop {
        at -= 1;
        digits[at] = b'0' + (v % 10) as u8;
        v /= 10;
        if v == 0 {
            break;
        }
    }
    out.push(b' ');
    out.extend_from_slice(&digits[at..]);
}

/// ` count sum`; the sum of nothing is written as 0.
pub fn put_sum(out: &mut Vec<u8>, count: usize, sum: &Sum) {
    put(out, count as u64);
    put(out, if count == 0 { 0 } else { sum.value() });
}

/// ` hex`, or ` -` for none.
pub fn put_hex(out: &mut Vec<u8>, bytes: &[u8]) {
    const DIGITS: &[u8; 16] = b"0123456789abcdef";
    out.push(b' ');
    if bytes.is_empty() {
        out.push(b'-');
    }
    for &b in bytes {
        out.extend_from_slice(&[DIGITS[usize::from(b >> 4)], DIGITS[usize::from(b & 15)]]);
    }
}

pub fn parse_hex(text: &[u8]) -> Option<Vec<u8>> {
    if text == b"-" {
        return Some(Vec::new());
    }
    let digit = |c: u8| match c {
        b'0'..=b'9' => Some(c - b'0'),
        b'a'..=b'f' => Some(c - b'a' + 10),
        _ => None,
    };
    if text.is_empty() || text.len() % 2 != 0 {
        return None;
    }
    text.chunks_exact(2).map(|p| Some(digit(p[0])? << 4 | digit(p[1])?)).collect()
}

pub fn parse_number(text: &[u8]) -> Option<u64> {
    if text.is_empty() || text.len() > 20 {
        return None;
    }
    text.iter().try_fold(0u64, |v, &c| {
        let d = c.is_ascii_digit().then(|| u64::from(c - b'0'))?;
        v.checked_mul(10)?.checked_add(d)
    })
}

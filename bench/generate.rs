// Writes a mixed stream of signal numbers, two bytes each, to standard output; the argument is how many.
// The same number gives the same stream on every machine. Standard library only.
use std::io::{self, BufWriter, Write};

struct Random(u64);

impl Random {
    fn next(&mut self) -> u64 {
        self.0 ^= self.0 << 13;
        self.0 ^= self.0 >> 7;
        self.0 ^= self.0 << 17;
        self.0
    }

    // a number from `low` to `high`, both included
    fn from_to(&mut self, low: u64, high: u64) -> u64 {
        low + (self.next() >> 16) % (high - low + 1)
    }

    fn byte(&mut self) -> u8 {
        self.from_to(0, 255) as u8
    }
}

fn add(frame: &mut Vec<u8>, number: u64, width: usize) {
    frame.extend_from_slice(&number.to_be_bytes()[8 - width..]);
}

fn tail(frame: &mut Vec<u8>, r: &mut Random) {
    let tail = r.from_to(0, 15) * 16 + r.from_to(0, 9);
    add(frame, tail, 1);
}

// A lawful frame of one of the seven kinds that are read.
fn lawful(frame: &mut Vec<u8>, r: &mut Random) {
    frame.clear();
    let sequence = r.byte();
    match r.from_to(0, 6) {
        0 => {
            let subtype = if r.from_to(0, 7) == 0 { 0xFF } else { 0x00 };
            frame.extend([13, 0x01, subtype, sequence]);
            frame.extend((0..10).map(|_| r.byte()));
        }
        1 => frame.extend([4, 0x02, r.from_to(0, 1) as u8, sequence, r.byte()]),
        2 => {
            let subtype = r.from_to(0, 7) as u8;
            let (id, units, command) = match subtype {
                0 | 1 => (0xFFFF, (1, 16), 4),
                2 | 3 => (0xFF_FFFF, (0, 1), 3),
                4 => (0xFF_FFFF, (0, 1), 7),
                5 => (0xFF_FFFF, (0, 1), 2),
                _ => (0xFF_FFFF, (0, 15), 3),
            };
            frame.extend([9, 0x19, subtype, sequence]);
            add(frame, r.from_to(1, id), 3);
            add(frame, r.from_to(units.0, units.1), 1);
            add(frame, r.from_to(0, command), 1);
            tail(frame, r);
        }
        3 => {
            frame.extend([8, 0x20, r.from_to(0, 9) as u8, sequence]);
            add(frame, r.from_to(0, 0xFF_FFFF), 3);
            let status = match r.from_to(0, 27) {
                n @ 0..=13 => n,
                n @ 14..=21 => n - 14 + 0x10,
                n => n - 22 + 0x80,
            };
            add(frame, status, 1);
            tail(frame, r);
        }
        4 => {
            frame.extend([13, 0x54, r.from_to(1, 2) as u8, sequence]);
            add(frame, r.from_to(0, 0xFFFF), 2);
            let size = r.from_to(1, 0x7FFF);
            add(frame, r.from_to(0, 1) * 0x8000 + size, 2);
            add(frame, r.from_to(0, 100), 1);
            add(frame, r.from_to(0, 3), 1);
            add(frame, r.from_to(900, 1100), 2);
            add(frame, r.from_to(0, 4), 1);
            tail(frame, r);
        }
        5 => {
            frame.extend([11, 0x55, r.from_to(1, 6) as u8, sequence]);
            add(frame, r.from_to(0, 0xFFFF), 2);
            add(frame, r.from_to(0, 0xFFFF), 2);
            add(frame, r.from_to(0, 0xFF_FFFF), 3);
            tail(frame, r);
        }
        _ => {
            frame.extend([10, 0x71, 0x00, sequence]);
            add(frame, r.from_to(0, 0xFFFF), 2);
            add(frame, r.from_to(0, 0x0FFF_FFFF), 4);
            add(frame, r.from_to(0, 15) * 16, 1);
        }
    }
}

fn main() -> io::Result<()> {
    let count: u64 = match std::env::args().nth(1).map(|a| a.parse()) {
        Some(Ok(count)) => count,
        _ => {
            eprintln!("generate: wants the number of signals");
            std::process::exit(1);
        }
    };
    let mut out = BufWriter::with_capacity(1 << 16, io::stdout().lock());
    let mut r = Random(0x9E37_79B9_7F4A_7C15);
    let mut frame = Vec::new();
    let mut signals: Vec<u16> = Vec::new();
    let mut left = count;
    while left > 0 {
        lawful(&mut frame, &mut r);
        let mut pauses = r.from_to(0, 5).saturating_sub(2);
        match r.from_to(0, 99) {
            // one byte is wrong
            0..=7 => {
                let at = r.from_to(0, frame.len() as u64 - 1) as usize;
                frame[at] = r.byte();
            }
            // cut by a pause
            8..=11 => {
                let held = r.from_to(1, frame.len() as u64 - 1) as usize;
                frame.truncate(held);
                pauses += 1;
            }
            // a type that is not read
            12..=14 => frame[1] = [0x00, 0x03, 0x10, 0x11, 0x50, 0x52, 0x56, 0x5A][r.from_to(0, 7) as usize],
            // no payload
            15..=16 => {
                let length = r.from_to(0, 3) as usize;
                frame.truncate(length + 1);
                frame[0] = length as u8;
            }
            _ => {}
        }
        signals.clear();
        signals.extend(frame.iter().map(|b| *b as u16));
        for _ in 0..pauses {
            signals.push(r.from_to(0x0100, 0xFFFF) as u16);
        }
        for signal in signals.iter().take(left as usize) {
            out.write_all(&signal.to_be_bytes())?;
        }
        left -= left.min(signals.len() as u64);
    }
    out.flush()
}

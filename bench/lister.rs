// A lister written by hand from docs/, to measure the proved one against: the same input, the same output.
// Standard library only: rustc -C opt-level=3 --edition 2021 lister.rs
use std::io::{self, ErrorKind, Read, Write};
use std::process::ExitCode;

const SIGNAL_LIMIT: u64 = 4_294_967_295;
const BUFFER: usize = 64 * 1024;
// the longest line: ten digits, " R ", thirty-six hexadecimal digits, a newline
const LINE: usize = 64;

#[derive(Clone, Copy)]
struct Tail {
    strength: u8,
    battery: u8,
}

#[derive(Clone, Copy)]
struct Interface {
    subtype: u8,
    data: [u8; 10],
}

#[derive(Clone, Copy)]
struct Transmitter {
    subtype: u8,
    message: u8,
}

#[derive(Clone, Copy)]
struct Blinds {
    subtype: u8,
    id: u32,
    unit: u8,
    command: u8,
    tail: Tail,
}

#[derive(Clone, Copy)]
struct Security {
    subtype: u8,
    id: u32,
    status: u8,
    tail: Tail,
}

#[derive(Clone, Copy)]
struct Climate {
    subtype: u8,
    id: u16,
    temperature: i16,
    humidity: u8,
    humidity_status: u8,
    pressure: u16,
    forecast: u8,
    tail: Tail,
}

#[derive(Clone, Copy)]
struct Rain {
    subtype: u8,
    id: u16,
    rate: u16,
    total: u32,
    tail: Tail,
}

#[derive(Clone, Copy)]
struct Meter {
    subtype: u8,
    id: u16,
    counter: u32,
    strength: u8,
}

#[derive(Clone, Copy)]
enum Record {
    Interface(Interface),
    Transmitter(Transmitter),
    Blinds(Blinds),
    Security(Security),
    Climate(Climate),
    Rain(Rain),
    Meter(Meter),
}

#[derive(Clone, Copy)]
enum Fault {
    NoPayload,
    Cut(u8),
    UnknownType,
    WrongLength,
    UnknownSubtype,
    OutOfRange(u8),
}

impl Fault {
    fn cause_and_offset(self) -> (u8, u8) {
        match self {
            Fault::NoPayload => (1, 0),
            Fault::Cut(held) => (2, held),
            Fault::UnknownType => (3, 1),
            Fault::WrongLength => (4, 0),
            Fault::UnknownSubtype => (5, 2),
            Fault::OutOfRange(offset) => (6, offset),
        }
    }
}

fn tail_at(byte: u8, offset: u8) -> Result<Tail, Fault> {
    let tail = Tail { strength: byte >> 4, battery: byte & 15 };
    if tail.battery > 9 {
        return Err(Fault::OutOfRange(offset));
    }
    Ok(tail)
}

fn interface(subtype: u8, data: &[u8]) -> Result<Record, Fault> {
    let data: [u8; 10] = data.try_into().map_err(|_| Fault::WrongLength)?;
    if subtype != 0x00 && subtype != 0xFF {
        return Err(Fault::UnknownSubtype);
    }
    Ok(Record::Interface(Interface { subtype, data }))
}

fn transmitter(subtype: u8, data: &[u8]) -> Result<Record, Fault> {
    let &[message] = data else {
        return Err(Fault::WrongLength);
    };
    if subtype > 0x01 {
        return Err(Fault::UnknownSubtype);
    }
    Ok(Record::Transmitter(Transmitter { subtype, message }))
}

fn blinds(subtype: u8, data: &[u8]) -> Result<Record, Fault> {
    let &[id0, id1, id2, unit, command, tail] = data else {
        return Err(Fault::WrongLength);
    };
    let (id_max, units, command_max) = match subtype {
        0x00 | 0x01 => (0x00_FFFF, 1..=16, 4),
        0x02 | 0x03 => (0xFF_FFFF, 0..=1, 3),
        0x04 => (0xFF_FFFF, 0..=1, 7),
        0x05 => (0xFF_FFFF, 0..=1, 2),
        0x06 | 0x07 => (0xFF_FFFF, 0..=15, 3),
        _ => return Err(Fault::UnknownSubtype),
    };
    let id = u32::from_be_bytes([0, id0, id1, id2]);
    if id == 0 || id > id_max {
        return Err(Fault::OutOfRange(4));
    }
    if !units.contains(&unit) {
        return Err(Fault::OutOfRange(7));
    }
    if command > command_max {
        return Err(Fault::OutOfRange(8));
    }
    let tail = tail_at(tail, 9)?;
    Ok(Record::Blinds(Blinds { subtype, id, unit, command, tail }))
}

fn security(subtype: u8, data: &[u8]) -> Result<Record, Fault> {
    let &[id0, id1, id2, status, tail] = data else {
        return Err(Fault::WrongLength);
    };
    if subtype > 0x09 {
        return Err(Fault::UnknownSubtype);
    }
    if !matches!(status, 0x00..=0x0D | 0x10..=0x17 | 0x80..=0x85) {
        return Err(Fault::OutOfRange(7));
    }
    let id = u32::from_be_bytes([0, id0, id1, id2]);
    let tail = tail_at(tail, 8)?;
    Ok(Record::Security(Security { subtype, id, status, tail }))
}

fn climate(subtype: u8, data: &[u8]) -> Result<Record, Fault> {
    let &[id0, id1, t0, t1, humidity, humidity_status, p0, p1, forecast, tail] = data else {
        return Err(Fault::WrongLength);
    };
    if subtype != 0x01 && subtype != 0x02 {
        return Err(Fault::UnknownSubtype);
    }
    let size = i16::from_be_bytes([t0 & 0x7F, t1]);
    let negative = t0 & 0x80 != 0;
    if negative && size == 0 {
        return Err(Fault::OutOfRange(6));
    }
    if humidity > 100 {
        return Err(Fault::OutOfRange(8));
    }
    if humidity_status > 3 {
        return Err(Fault::OutOfRange(9));
    }
    if forecast > 4 {
        return Err(Fault::OutOfRange(12));
    }
    let tail = tail_at(tail, 13)?;
    Ok(Record::Climate(Climate {
        subtype,
        id: u16::from_be_bytes([id0, id1]),
        temperature: if negative { -size } else { size },
        humidity,
        humidity_status,
        pressure: u16::from_be_bytes([p0, p1]),
        forecast,
        tail,
    }))
}

fn rain(subtype: u8, data: &[u8]) -> Result<Record, Fault> {
    let &[id0, id1, r0, r1, t0, t1, t2, tail] = data else {
        return Err(Fault::WrongLength);
    };
    if !(0x01..=0x06).contains(&subtype) {
        return Err(Fault::UnknownSubtype);
    }
    let tail = tail_at(tail, 11)?;
    Ok(Record::Rain(Rain {
        subtype,
        id: u16::from_be_bytes([id0, id1]),
        rate: u16::from_be_bytes([r0, r1]),
        total: u32::from_be_bytes([0, t0, t1, t2]),
        tail,
    }))
}

fn meter(subtype: u8, data: &[u8]) -> Result<Record, Fault> {
    let &[id0, id1, c0, c1, c2, c3, tail] = data else {
        return Err(Fault::WrongLength);
    };
    if subtype != 0x00 {
        return Err(Fault::UnknownSubtype);
    }
    let counter = u32::from_be_bytes([c0, c1, c2, c3]);
    if counter > 0x0FFF_FFFF {
        return Err(Fault::OutOfRange(6));
    }
    if tail & 15 != 0 {
        return Err(Fault::OutOfRange(10));
    }
    let id = u16::from_be_bytes([id0, id1]);
    Ok(Record::Meter(Meter { subtype, id, counter, strength: tail >> 4 }))
}

// The sequence number and the record of a whole frame, or its fault.
fn judge(frame: &[u8]) -> Result<(u8, Record), Fault> {
    let &[_, kind, subtype, sequence, ref data @ ..] = frame else {
        return Err(Fault::NoPayload);
    };
    if data.is_empty() {
        return Err(Fault::NoPayload);
    }
    let record = match kind {
        0x01 => interface(subtype, data),
        0x02 => transmitter(subtype, data),
        0x19 => blinds(subtype, data),
        0x20 => security(subtype, data),
        0x54 => climate(subtype, data),
        0x55 => rain(subtype, data),
        0x71 => meter(subtype, data),
        _ => Err(Fault::UnknownType),
    }?;
    Ok((sequence, record))
}

// Bytes gathered from the front on; a house record has at most 18.
struct House {
    bytes: [u8; 18],
    size: usize,
}

impl House {
    fn new(map: u16, kind: u8, subtype: u8, sequence: u8) -> House {
        let mut house = House { bytes: [0; 18], size: 0 };
        house.add(map.to_be_bytes());
        house.add([kind, subtype, sequence]);
        house
    }

    #[inline]
    fn add<const N: usize>(&mut self, bytes: [u8; N]) {
        self.bytes[self.size..self.size + N].copy_from_slice(&bytes);
        self.size += N;
    }

    #[inline]
    fn tail(&mut self, tail: Tail) {
        self.add([tail.battery, tail.strength]);
    }

    fn of(sequence: u8, record: &Record) -> House {
        match record {
            Record::Interface(r) => {
                let mut h = House::new(0x2001, 0x01, r.subtype, sequence);
                h.add(r.data);
                h
            }
            Record::Transmitter(r) => {
                let mut h = House::new(0x0009, 0x02, r.subtype, sequence);
                h.add([r.message]);
                h
            }
            Record::Blinds(r) => {
                let mut h = House::new(0x180F, 0x19, r.subtype, sequence);
                h.add(r.id.to_be_bytes());
                h.add([r.unit, r.command]);
                h.tail(r.tail);
                h
            }
            Record::Security(r) => {
                let mut h = House::new(0x180B, 0x20, r.subtype, sequence);
                h.add(r.id.to_be_bytes());
                h.add([r.status]);
                h.tail(r.tail);
                h
            }
            Record::Climate(r) => {
                let mut h = House::new(0x1873, 0x54, r.subtype, sequence);
                h.add((r.id as u32).to_be_bytes());
                h.add(r.temperature.to_be_bytes());
                h.add([r.humidity, r.humidity_status]);
                h.add(r.pressure.to_be_bytes());
                h.add([r.forecast]);
                h.tail(r.tail);
                h
            }
            Record::Rain(r) => {
                let mut h = House::new(0x1883, 0x55, r.subtype, sequence);
                h.add((r.id as u32).to_be_bytes());
                h.add(r.rate.to_be_bytes());
                let [_, t0, t1, t2] = r.total.to_be_bytes();
                h.add([t0, t1, t2]);
                h.tail(r.tail);
                h
            }
            Record::Meter(r) => {
                let mut h = House::new(0x1403, 0x71, r.subtype, sequence);
                h.add((r.id as u32).to_be_bytes());
                h.add(r.counter.to_be_bytes());
                h.add([r.strength]);
                h
            }
        }
    }
}

// both digits of each byte
const HEX: [[u8; 2]; 256] = {
    let digits = b"0123456789ABCDEF";
    let mut table = [[0; 2]; 256];
    let mut i = 0;
    while i < 256 {
        table[i] = [digits[i >> 4], digits[i & 15]];
        i += 1;
    }
    table
};

// Lines, kept until the buffer is full.
struct Output<W: Write> {
    to: W,
    buffer: Box<[u8; BUFFER]>,
    size: usize,
}

impl<W: Write> Output<W> {
    fn new(to: W) -> Output<W> {
        Output { to, buffer: Box::new([0; BUFFER]), size: 0 }
    }

    fn flush(&mut self) -> io::Result<()> {
        self.to.write_all(&self.buffer[..self.size])?;
        self.size = 0;
        self.to.flush()
    }

    #[inline]
    fn line(&mut self) -> io::Result<()> {
        if BUFFER - self.size < LINE {
            self.flush()?;
        }
        Ok(())
    }

    #[inline]
    fn text<const N: usize>(&mut self, text: &[u8; N]) {
        self.buffer[self.size..self.size + N].copy_from_slice(text);
        self.size += N;
    }

    #[inline]
    fn decimal(&mut self, mut n: u32) {
        let mut digits = [0; 10];
        let mut at = 10;
        loop {
            at -= 1;
            digits[at] = b'0' + (n % 10) as u8;
            n /= 10;
            if n == 0 {
                break;
            }
        }
        let size = 10 - at;
        self.buffer[self.size..self.size + size].copy_from_slice(&digits[at..]);
        self.size += size;
    }

    #[inline]
    fn hex(&mut self, bytes: &[u8]) {
        let room = &mut self.buffer[self.size..self.size + 2 * bytes.len()];
        for (pair, byte) in room.chunks_exact_mut(2).zip(bytes) {
            pair.copy_from_slice(&HEX[*byte as usize]);
        }
        self.size += 2 * bytes.len();
    }

    fn record(&mut self, place: u32, sequence: u8, record: &Record) -> io::Result<()> {
        self.line()?;
        self.decimal(place);
        self.text(b" R ");
        let house = House::of(sequence, record);
        self.hex(&house.bytes[..house.size]);
        self.text(b"\n");
        Ok(())
    }

    fn fault(&mut self, place: u32, fault: Fault) -> io::Result<()> {
        let (cause, offset) = fault.cause_and_offset();
        self.line()?;
        self.decimal(place);
        self.text(b" F ");
        self.decimal(cause as u32);
        self.text(b" ");
        self.decimal(offset as u32);
        self.text(b"\n");
        Ok(())
    }

    fn closing(&mut self, signals: u32, begun: usize) -> io::Result<()> {
        self.line()?;
        self.text(b"E ");
        self.decimal(signals);
        self.text(b" ");
        self.decimal(begun as u32);
        self.text(b"\n");
        self.flush()
    }
}

// The frame begun: its bytes so far, and its place.
struct Begun {
    bytes: [u8; 256],
    held: usize,
    place: u32,
}

impl Begun {
    // Takes some signals and lists the entries that they complete.
    fn take<W: Write>(&mut self, signals: &[[u8; 2]], out: &mut Output<W>) -> io::Result<()> {
        let mut at = 0;
        while let Some(&[high, low]) = signals.get(at) {
            if self.held == 0 && high == 0 {
                // most frames lie whole in the buffer
                let size = low as usize + 1;
                if let Some(part) = signals.get(at..at + size) {
                    let mut highs = 0;
                    for (byte, [high, low]) in self.bytes.iter_mut().zip(part) {
                        *byte = *low;
                        highs |= *high;
                    }
                    if highs == 0 {
                        self.whole(size, out)?;
                        at += size;
                        continue;
                    }
                }
            }
            self.step(high, low, out)?;
            at += 1;
        }
        Ok(())
    }

    fn step<W: Write>(&mut self, high: u8, low: u8, out: &mut Output<W>) -> io::Result<()> {
        if high != 0 {
            if self.held > 0 {
                out.fault(self.place, Fault::Cut(self.held as u8))?;
                self.place += self.held as u32;
                self.held = 0;
            }
            return Ok(());
        }
        self.bytes[self.held] = low;
        self.held += 1;
        let size = self.bytes[0] as usize + 1;
        if self.held == size {
            self.whole(size, out)?;
            self.held = 0;
        }
        Ok(())
    }

    // The first `size` bytes are a whole frame.
    #[inline]
    fn whole<W: Write>(&mut self, size: usize, out: &mut Output<W>) -> io::Result<()> {
        match judge(&self.bytes[..size]) {
            Ok((sequence, record)) => out.record(self.place, sequence, &record)?,
            Err(fault) => out.fault(self.place, fault)?,
        }
        self.place += size as u32;
        Ok(())
    }
}

// Lists all of the input; whether it ended within the signal limit.
fn list(mut from: impl Read, to: impl Write) -> io::Result<bool> {
    let mut out = Output::new(to);
    let mut begun = Begun { bytes: [0; 256], held: 0, place: 0 };
    let mut taken: u64 = 0;
    let mut input = vec![0; BUFFER];
    let mut kept = 0;
    loop {
        let got = match from.read(&mut input[kept..]) {
            Ok(got) => got,
            Err(e) if e.kind() == ErrorKind::Interrupted => continue,
            Err(e) => {
                out.flush()?;
                return Err(e);
            }
        };
        if got == 0 {
            out.closing(taken as u32, begun.held)?;
            return Ok(true);
        }
        let have = kept + got;
        let count = (have / 2) as u64;
        let within = count.min(SIGNAL_LIMIT - taken);
        begun.take(input[..2 * within as usize].as_chunks().0, &mut out)?;
        taken += within;
        if within < count {
            out.flush()?;
            return Ok(false);
        }
        kept = have % 2;
        if kept == 1 {
            input[0] = input[have - 1];
        }
    }
}

fn main() -> ExitCode {
    let mut arguments = std::env::args_os().skip(1);
    match (arguments.next(), arguments.next()) {
        (None, _) => {}
        (Some(one), None) if one == "--help" => {
            println!("lister: lists the reading of the signal numbers on standard input");
            return ExitCode::SUCCESS;
        }
        _ => {
            eprintln!("lister: takes no arguments but --help");
            return ExitCode::FAILURE;
        }
    }
    // whole lines in large portions pass straight through both locks
    match list(io::stdin().lock(), io::stdout().lock()) {
        Ok(true) => ExitCode::SUCCESS,
        Ok(false) => {
            eprintln!("lister: more than {SIGNAL_LIMIT} signals; the rest is not listed");
            ExitCode::FAILURE
        }
        Err(e) => {
            eprintln!("lister: {e}");
            ExitCode::FAILURE
        }
    }
}

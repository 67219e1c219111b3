//! SCRIPTS.md, "Words and lines" to "Reading": bytes to a script, or a fault at its byte.

use crate::bridge::ReadPart;
use crate::rules::{Burst, Data};

pub const LIMIT: usize = 16_384;

/// The rows of the table in "Reading", finer where one row has several causes.
#[derive(Clone, Copy, PartialEq, Eq, Debug)]
pub enum Row {
    TooLong,
    WordMissing,
    WordEmptySpace,
    WordEmptyLine,
    OtherKeyword,
    NotADigit,
    TooManyDigits,
    AboveCarrier,
    SeparatorMissing,
    LineEndForSpace,
    SpaceForLineEnd,
    BytesAfter,
}

impl Row {
    pub const ALL: [Row; 12] = [
        Row::TooLong,
        Row::WordMissing,
        Row::WordEmptySpace,
        Row::WordEmptyLine,
        Row::OtherKeyword,
        Row::NotADigit,
        Row::TooManyDigits,
        Row::AboveCarrier,
        Row::SeparatorMissing,
        Row::LineEndForSpace,
        Row::SpaceForLineEnd,
        Row::BytesAfter,
    ];

    pub fn number(self) -> u8 {
        match self {
            Row::TooLong => 20,
            Row::WordMissing | Row::SeparatorMissing => 23,
            Row::TooManyDigits | Row::AboveCarrier => 22,
            Row::BytesAfter => 24,
            _ => 21,
        }
    }
}

#[derive(Clone, Copy, PartialEq, Eq, Debug)]
pub struct Fault {
    pub row: Row,
    pub place: usize,
    /// 0 the first line, 1 `writes` ... 6 `gates`
    pub section: usize,
}

#[derive(Clone, Copy, PartialEq, Eq, Debug)]
pub struct Gate {
    pub bits: u16,
    pub place: u16,
}

#[derive(Clone, PartialEq, Eq, Debug, Default)]
pub struct Script {
    pub upper: u8,
    pub lower: u8,
    pub level: u8,
    pub writes: Vec<Burst>,
    pub beats: Vec<Data>,
    pub reads: Vec<Burst>,
    pub wcodes: Vec<u8>,
    pub rparts: Vec<ReadPart>,
    pub gates: Vec<Gate>,
}

struct Eye<'a> {
    text: &'a [u8],
    at: usize,
    section: usize,
}

impl<'a> Eye<'a> {
    fn fault<T>(&self, row: Row, place: usize) -> Result<T, Fault> {
        Err(Fault { row, place, section: self.section })
    }

    /// A due word is there and is not empty.
    #[inline]
    fn due(&self) -> Result<u8, Fault> {
        match self.text.get(self.at) {
            None => self.fault(Row::WordMissing, self.at),
            Some(b' ') => self.fault(Row::WordEmptySpace, self.at),
            Some(b'\n') => self.fault(Row::WordEmptyLine, self.at),
            Some(&b) => Ok(b),
        }
    }

    fn keyword(&mut self, name: &str) -> Result<(), Fault> {
        self.due()?;
        let rest = &self.text[self.at..];
        let end = rest.iter().position(|&b| b == b' ' || b == b'\n').unwrap_or(rest.len());
        if &rest[..end] != name.as_bytes() {
            return self.fault(Row::OtherKeyword, self.at);
        }
        self.at += end;
        Ok(())
    }

    #[inline]
    fn number(&mut self, bits: u32) -> Result<u64, Fault> {
        self.due()?;
        let start = self.at;
        let mut value = 0u64;
        let mut end = start;
        // A value of over 16 digits is spilled on the left; the number of digits tells then.
        while let Some(&b) = self.text.get(end) {
            let digit = match b {
                b'0'..=b'9' => b - b'0',
                b'a'..=b'f' => b - b'a' + 10,
                b' ' | b'\n' => break,
                _ => return self.fault(Row::NotADigit, start),
            };
            value = value << 4 | digit as u64;
            end += 1;
        }
        if end - start > 16 {
            return self.fault(Row::TooManyDigits, start);
        }
        if bits < 64 && value >> bits != 0 {
            return self.fault(Row::AboveCarrier, start);
        }
        self.at = end;
        Ok(value)
    }

    #[inline]
    fn space(&mut self) -> Result<(), Fault> {
        match self.text.get(self.at) {
            Some(b' ') => {
                self.at += 1;
                Ok(())
            }
            Some(_) => self.fault(Row::LineEndForSpace, self.at),
            None => self.fault(Row::SeparatorMissing, self.at),
        }
    }

    #[inline]
    fn line_end(&mut self) -> Result<(), Fault> {
        match self.text.get(self.at) {
            Some(b'\n') => {
                self.at += 1;
                Ok(())
            }
            Some(_) => self.fault(Row::SpaceForLineEnd, self.at),
            None => self.fault(Row::SeparatorMissing, self.at),
        }
    }

    /// The numbers of the rest of a line with the 0a behind them.
    #[inline]
    fn numbers<const K: usize>(&mut self, bits: [u32; K]) -> Result<[u64; K], Fault> {
        let mut all = [0; K];
        for k in 0..K {
            if k > 0 {
                self.space()?;
            }
            all[k] = self.number(bits[k])?;
        }
        self.line_end()?;
        Ok(all)
    }

    fn head<const K: usize>(&mut self, name: &str, bits: [u32; K]) -> Result<[u64; K], Fault> {
        self.keyword(name)?;
        self.space()?;
        self.numbers(bits)
    }

    fn section<T, const K: usize>(
        &mut self,
        name: &str,
        bits: [u32; K],
        entry: impl Fn([u64; K], usize) -> T,
    ) -> Result<Vec<T>, Fault> {
        self.section += 1;
        let [count] = self.head(name, [16])?;
        // No line is shorter than its K digits and K separators.
        let room = (self.text.len() - self.at) / (2 * K);
        let mut all = Vec::with_capacity(room.min(count as usize));
        for _ in 0..count {
            let place = self.at;
            all.push(entry(self.numbers(bits)?, place));
        }
        Ok(all)
    }
}

fn burst(f: [u64; 8], _: usize) -> Burst {
    Burst {
        id: f[0] as u16,
        addr: f[1] as u32,
        len: f[2] as u8,
        size: f[3] as u8,
        kind: f[4] as u8,
        lock: f[5] as u8,
        cache: f[6] as u8,
        prot: f[7] as u8,
    }
}

const BURST_BITS: [u32; 8] = [16, 32, 8, 8, 8, 8, 8, 8];

pub fn read(text: &[u8]) -> Result<Script, Fault> {
    let mut eye = Eye { text, at: 0, section: 0 };
    if text.len() > LIMIT {
        return eye.fault(Row::TooLong, 0);
    }
    let [upper, lower, level] = eye.head("bridge", [8, 8, 8])?;
    let script = Script {
        upper: upper as u8,
        lower: lower as u8,
        level: level as u8,
        writes: eye.section("writes", BURST_BITS, burst)?,
        beats: eye.section("beats", [64, 8], |f, _| Data { data: f[0], strb: f[1] as u8 })?,
        reads: eye.section("reads", BURST_BITS, burst)?,
        wcodes: eye.section("wcodes", [8], |f, _| f[0] as u8)?,
        rparts: eye.section("rparts", [64, 8], |f, _| ReadPart { data: f[0], code: f[1] as u8 })?,
        gates: eye.section("gates", [10], |f, place| Gate {
            bits: f[0] as u16,
            place: place as u16,
        })?,
    };
    if eye.at < text.len() {
        return eye.fault(Row::BytesAfter, eye.at);
    }
    Ok(script)
}

/// 1 + the number of 0a bytes before the place.
pub fn line_of(text: &[u8], place: usize) -> usize {
    1 + text[..place].iter().filter(|&&b| b == b'\n').count()
}

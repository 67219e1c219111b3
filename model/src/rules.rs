//! RULES.md: plan, judging, beat addresses, parts and lanes, codes and joining, refusals.

/// Refusals 1 to 3 (making a plan) and 4 to 8 (an edge).
#[derive(Clone, Copy, PartialEq, Eq, Debug)]
#[repr(u8)]
pub enum Refusal {
    Width = 1,
    LowerAboveUpper = 2,
    Level = 3,
    WriteBurst = 4,
    DataBeat = 5,
    ReadBurst = 6,
    WriteCode = 7,
    ReadPart = 8,
}

impl Refusal {
    pub fn number(self) -> u8 {
        self as u8
    }
}

#[derive(Clone, Copy, PartialEq, Eq, Debug, Default)]
#[repr(u8)]
pub enum Verdict {
    #[default]
    Forwarded = 0,
    ReservedKind = 1,
    WiderThanUpper = 2,
    FixedTooLong = 3,
    WrapCount = 4,
    WrapUnaligned = 5,
    CrossesBoundary = 6,
    SeveralBeats = 7,
    WiderThanLower = 8,
    NarrowerThanLower = 9,
    LockedOrCached = 10,
}

impl Verdict {
    pub fn number(self) -> u8 {
        self as u8
    }
}

pub const FIXED: u8 = 0;
pub const INCR: u8 = 1;
pub const WRAP: u8 = 2;

pub const OKAY: u8 = 0;
pub const EXOKAY: u8 = 1;
pub const SLVERR: u8 = 2;
pub const DECERR: u8 = 3;

/// The payload of AW or AR. Fields are as wide as their carriers.
#[derive(Clone, Copy, PartialEq, Eq, Debug, Default)]
pub struct Burst {
    pub addr: u32,
    pub id: u16,
    pub len: u8,
    pub size: u8,
    pub kind: u8,
    pub lock: u8,
    pub cache: u8,
    pub prot: u8,
}

impl Burst {
    /// N.
    #[inline]
    pub fn beats(&self) -> u32 {
        self.len as u32 + 1
    }

    /// S. A SIZE above 7 counts as 256.
    #[inline]
    pub fn bytes(&self) -> u32 {
        1 << self.size.min(8)
    }

    /// No field is above its largest value.
    #[inline]
    pub fn fits(&self) -> bool {
        // the bits above each field, all at once
        let over = (self.id >> 12) as u8
            | self.size >> 3
            | self.kind >> 2
            | self.lock >> 1
            | self.cache >> 4
            | self.prot >> 3;
        over == 0
    }

    /// Address of beat i, by the formulas of the table (no wrap at 2^32).
    pub fn address(&self, i: u32) -> u64 {
        let addr = self.addr as u64;
        let s = self.bytes() as u64;
        let i = i as u64;
        match self.kind {
            FIXED => addr,
            WRAP => {
                let t = self.beats() as u64 * s;
                let base = addr - addr % t;
                base + (addr - base + i * s) % t
            }
            _ if i == 0 => addr,
            _ => addr - addr % s + i * s,
        }
    }
}

#[derive(Clone, Copy, PartialEq, Eq, Debug)]
pub struct Plan {
    upper: u8,
    lower: u8,
    level: u8,
}

impl Plan {
    pub fn new(upper: u8, lower: u8, level: u8) -> Result<Plan, Refusal> {
        let width = |w| w == 4 || w == 8;
        if !width(upper) || !width(lower) {
            Err(Refusal::Width)
        } else if lower > upper {
            Err(Refusal::LowerAboveUpper)
        } else if level > 2 {
            Err(Refusal::Level)
        } else {
            Ok(Plan { upper, lower, level })
        }
    }

    pub fn upper(&self) -> u32 {
        self.upper as u32
    }

    pub fn lower(&self) -> u32 {
        self.lower as u32
    }

    pub fn level(&self) -> u8 {
        self.level
    }

    /// Rows 1 to 6: what makes a burst illegal whatever the level.
    #[inline]
    fn illegal(&self, b: &Burst) -> Verdict {
        let n = b.beats();
        let s = b.bytes();
        if b.kind > WRAP {
            return Verdict::ReservedKind;
        }
        if s > self.upper as u32 {
            return Verdict::WiderThanUpper;
        }
        match b.kind {
            FIXED if n > 16 => Verdict::FixedTooLong,
            WRAP if !matches!(n, 2 | 4 | 8 | 16) => Verdict::WrapCount,
            WRAP if b.addr % s != 0 => Verdict::WrapUnaligned,
            // S divides 4096, so the page of ADDR can be taken off both sides.
            INCR if (b.addr % 4096) / s * s + n * s > 4096 => Verdict::CrossesBoundary,
            _ => Verdict::Forwarded,
        }
    }

    /// Rows 7 to 10 at a level, for a burst that none of rows 1 to 6 meets.
    #[inline]
    fn unfit(&self, level: u8, b: &Burst) -> Verdict {
        let s = b.bytes();
        let l = self.lower as u32;
        if level == 0 {
            Verdict::Forwarded
        } else if b.len != 0 {
            Verdict::SeveralBeats
        } else if s > l {
            Verdict::WiderThanLower
        } else if level == 1 {
            Verdict::Forwarded
        } else if s < l {
            Verdict::NarrowerThanLower
        } else if b.lock == 1 || b.cache != 0 {
            Verdict::LockedOrCached
        } else {
            Verdict::Forwarded
        }
    }

    /// The verdict and the full-protection verdict.
    #[inline]
    pub fn judge(&self, b: &Burst) -> Judged {
        match self.illegal(b) {
            Verdict::Forwarded => {
                Judged { verdict: self.unfit(self.level, b), protect: self.unfit(2, b) }
            }
            bad => Judged { verdict: bad, protect: bad },
        }
    }

    /// All parts of a beat at address `at` with S bytes.
    pub fn parts(&self, at: u32, s: u32) -> Vec<u32> {
        let mut all = vec![at];
        while let Some(next) = self.part_after(*all.last().unwrap(), s) {
            all.push(next);
        }
        all
    }

    /// The part behind the part at `p` in its beat of S bytes.
    #[inline]
    pub fn part_after(&self, p: u32, s: u32) -> Option<u32> {
        let l = self.lower as u32;
        let aligned = p & !(l - 1);
        if (aligned & (s - 1)) + l < s {
            Some(aligned + l)
        } else {
            None
        }
    }

    /// F, the first upper lane of the part at `p`.
    #[inline]
    pub fn lane(&self, p: u32) -> u32 {
        p & (self.upper as u32 - 1) & !(self.lower as u32 - 1)
    }

    /// LWDATA and LWSTRB of the part at `p`.
    #[inline]
    pub fn down(&self, p: u32, beat: &Data) -> Data {
        let f = self.lane(p);
        Data {
            data: (beat.data >> (8 * f)) & data_mask(self.lower),
            strb: (beat.strb >> f) & strb_mask(self.lower),
        }
    }

    /// LRDATA of the part at `p`, moved to its lanes.
    #[inline]
    pub fn up(&self, p: u32, data: u64) -> u64 {
        data << (8 * self.lane(p))
    }

    #[inline]
    pub fn upper_fits(&self, d: &Data) -> bool {
        d.data <= data_mask(self.upper) && d.strb <= strb_mask(self.upper)
    }

    #[inline]
    pub fn lower_fits(&self, data: u64) -> bool {
        data <= data_mask(self.lower)
    }
}

#[inline]
fn data_mask(width: u8) -> u64 {
    if width == 8 {
        u64::MAX
    } else {
        0xffff_ffff
    }
}

#[inline]
fn strb_mask(width: u8) -> u8 {
    if width == 8 {
        0xff
    } else {
        0x0f
    }
}

#[derive(Clone, Copy, PartialEq, Eq, Debug, Default)]
pub struct Judged {
    pub verdict: Verdict,
    /// the full-protection verdict
    pub protect: Verdict,
}

/// Data and strobes of W or LW.
#[derive(Clone, Copy, PartialEq, Eq, Debug, Default)]
pub struct Data {
    pub data: u64,
    pub strb: u8,
}

/// First code joined with second, both already without EXOKAY.
#[inline]
pub fn join(first: u8, second: u8) -> u8 {
    if first == OKAY {
        second
    } else {
        first
    }
}

/// A code of the block as it counts above.
#[inline]
pub fn heard(code: u8) -> u8 {
    if code == EXOKAY {
        OKAY
    } else {
        code
    }
}

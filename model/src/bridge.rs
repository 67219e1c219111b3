//! MACHINE.md: tables, wires, edges, both engines, what is owed.

use crate::rules::*;

/// A first-in first-out table with a fixed number of slots, none included.
#[derive(Clone, PartialEq, Eq, Debug)]
pub struct Ring<T> {
    cells: Box<[T]>,
    head: usize,
    used: usize,
}

impl<T: Copy + Default> Ring<T> {
    pub fn new(slots: usize) -> Ring<T> {
        Ring { cells: vec![T::default(); slots].into_boxed_slice(), head: 0, used: 0 }
    }

    #[inline]
    pub fn full(&self) -> bool {
        self.used == self.cells.len()
    }

    #[inline]
    pub fn len(&self) -> usize {
        self.used
    }

    #[inline]
    pub fn is_empty(&self) -> bool {
        self.used == 0
    }

    #[inline]
    pub fn oldest(&self) -> Option<&T> {
        if self.used == 0 {
            None
        } else {
            self.cells.get(self.head)
        }
    }

    #[inline]
    fn take(&mut self) -> Option<T> {
        let x = *self.oldest()?;
        self.head += 1;
        if self.head == self.cells.len() {
            self.head = 0;
        }
        self.used -= 1;
        Some(x)
    }

    /// The caller knows that there is room.
    #[inline]
    fn put(&mut self, x: T) {
        let mut at = self.head + self.used;
        if at >= self.cells.len() {
            at -= self.cells.len();
        }
        self.cells[at] = x;
        self.used += 1;
    }

    fn clear(&mut self) {
        self.head = 0;
        self.used = 0;
    }

    pub fn iter(&self) -> impl Iterator<Item = &T> {
        (0..self.used).map(move |k| &self.cells[(self.head + k) % self.cells.len()])
    }
}

/// Numbers of slots of the five tables.
#[derive(Clone, Copy, PartialEq, Eq, Debug)]
pub struct Slots {
    pub write_bursts: usize,
    pub data_beats: usize,
    pub write_answers: usize,
    pub read_bursts: usize,
    pub read_beats: usize,
}

impl Slots {
    pub fn all(n: usize) -> Slots {
        Slots { write_bursts: n, data_beats: n, write_answers: n, read_bursts: n, read_beats: n }
    }
}

#[derive(Clone, Copy, PartialEq, Eq, Debug, Default)]
pub struct Waiting {
    pub burst: Burst,
    pub verdict: Verdict,
}

#[derive(Clone, Copy, PartialEq, Eq, Debug, Default)]
pub struct WriteAnswer {
    pub id: u16,
    pub code: u8,
}

#[derive(Clone, Copy, PartialEq, Eq, Debug, Default)]
pub struct ReadBeat {
    pub data: u64,
    pub id: u16,
    pub code: u8,
    pub last: bool,
}

#[derive(Clone, Copy, PartialEq, Eq, Debug, Default)]
pub struct ReadPart {
    pub data: u64,
    pub code: u8,
}

/// The wires that master and block drive. `Some` is a high VALID with its payload.
#[derive(Clone, Copy, PartialEq, Eq, Debug)]
pub struct Inputs {
    pub aresetn: bool,
    pub aw: Option<Burst>,
    pub w: Option<Data>,
    pub bready: bool,
    pub ar: Option<Burst>,
    pub rready: bool,
    pub lawready: bool,
    pub lwready: bool,
    pub lb: Option<u8>,
    pub larready: bool,
    pub lr: Option<ReadPart>,
}

impl Inputs {
    /// ARESETn high, every other wire low.
    pub const QUIET: Inputs = Inputs {
        aresetn: true,
        aw: None,
        w: None,
        bready: false,
        ar: None,
        rready: false,
        lawready: false,
        lwready: false,
        lb: None,
        larready: false,
        lr: None,
    };
}

/// The wires that the bridge drives.
#[derive(Clone, Copy, PartialEq, Eq, Debug, Default)]
pub struct Wires {
    pub awready: bool,
    pub wready: bool,
    pub bvalid: bool,
    pub bid: u16,
    pub bresp: u8,
    pub arready: bool,
    pub rvalid: bool,
    pub rid: u16,
    pub rdata: u64,
    pub rresp: u8,
    pub rlast: bool,
    pub lawvalid: bool,
    pub lawaddr: u32,
    pub lawprot: u8,
    pub lwvalid: bool,
    pub lwdata: u64,
    pub lwstrb: u8,
    pub lbready: bool,
    pub larvalid: bool,
    pub laraddr: u32,
    pub larprot: u8,
    pub lrready: bool,
}

/// Bits of `Outcome::crossed`, in the order of a transcript.
pub mod chan {
    pub const AW: u16 = 1;
    pub const W: u16 = 2;
    pub const B: u16 = 4;
    pub const AR: u16 = 8;
    pub const R: u16 = 16;
    pub const LAW: u16 = 32;
    pub const LW: u16 = 64;
    pub const LB: u16 = 128;
    pub const LAR: u16 = 256;
    pub const LR: u16 = 512;
    pub const NAMES: [&str; 10] = ["AW", "W", "B", "AR", "R", "LAW", "LW", "LB", "LAR", "LR"];
}

/// What an edge gives that is not refused.
#[derive(Clone, Copy, PartialEq, Eq, Debug, Default)]
pub struct Outcome {
    pub crossed: u16,
    pub write: Option<Judged>,
    pub read: Option<Judged>,
}

#[derive(Clone, Copy, PartialEq, Eq, Debug)]
pub enum WriteState {
    Idle,
    Fetch,
    Send,
    Await,
    Close,
}

#[derive(Clone, Copy, PartialEq, Eq, Debug)]
pub enum ReadState {
    Idle,
    Send,
    Await,
    Close,
}

/// The way of a burst through its beats: address of the beat at hand and how many follow it.
#[derive(Clone, Copy, PartialEq, Eq, Debug, Default)]
struct Walk {
    beat: u32,
    /// beats after the one at hand
    left: u8,
    bytes: u32,
    /// address bits that no step changes
    kept: u32,
}

impl Walk {
    #[inline]
    fn new(b: &Burst) -> Walk {
        let bytes = b.bytes();
        let kept = match b.kind {
            FIXED => !0,
            WRAP => !(b.beats() * bytes - 1),
            _ => 0,
        };
        Walk { beat: b.addr, left: b.len, bytes, kept }
    }

    #[inline]
    fn step(&mut self) {
        let next = (self.beat & !(self.bytes - 1)).wrapping_add(self.bytes);
        self.beat = (self.beat & self.kept) | (next & !self.kept);
        self.left -= 1;
    }
}

#[derive(Clone, Copy, PartialEq, Eq, Debug)]
struct Writer {
    state: WriteState,
    forwarded: bool,
    id: u16,
    prot: u8,
    code: u8,
    walk: Walk,
    beat: Data,
    part: u32,
    lower: Data,
    law_done: bool,
    lw_done: bool,
}

#[derive(Clone, Copy, PartialEq, Eq, Debug)]
struct Reader {
    state: ReadState,
    forwarded: bool,
    id: u16,
    prot: u8,
    code: u8,
    data: u64,
    walk: Walk,
    part: u32,
}

const RESTING_WRITER: Writer = Writer {
    state: WriteState::Idle,
    forwarded: false,
    id: 0,
    prot: 0,
    code: OKAY,
    walk: Walk { beat: 0, left: 0, bytes: 1, kept: 0 },
    beat: Data { data: 0, strb: 0 },
    part: 0,
    lower: Data { data: 0, strb: 0 },
    law_done: false,
    lw_done: false,
};

const RESTING_READER: Reader = Reader {
    state: ReadState::Idle,
    forwarded: false,
    id: 0,
    prot: 0,
    code: OKAY,
    data: 0,
    walk: Walk { beat: 0, left: 0, bytes: 1, kept: 0 },
    part: 0,
};

#[derive(Clone, PartialEq, Eq, Debug)]
pub struct Bridge {
    plan: Plan,
    writer: Writer,
    reader: Reader,
    write_bursts: Ring<Waiting>,
    data_beats: Ring<Data>,
    write_answers: Ring<WriteAnswer>,
    read_bursts: Ring<Waiting>,
    read_beats: Ring<ReadBeat>,
}

impl Bridge {
    pub fn new(plan: Plan, slots: Slots) -> Bridge {
        Bridge {
            plan,
            writer: RESTING_WRITER,
            reader: RESTING_READER,
            write_bursts: Ring::new(slots.write_bursts),
            data_beats: Ring::new(slots.data_beats),
            write_answers: Ring::new(slots.write_answers),
            read_bursts: Ring::new(slots.read_bursts),
            read_beats: Ring::new(slots.read_beats),
        }
    }

    pub fn plan(&self) -> Plan {
        self.plan
    }

    #[inline]
    pub fn wires(&self) -> Wires {
        let mut o = Wires {
            awready: !self.write_bursts.full(),
            wready: !self.data_beats.full(),
            arready: !self.read_bursts.full(),
            lbready: self.writer.state == WriteState::Await,
            lrready: self.reader.state == ReadState::Await,
            ..Wires::default()
        };
        if let Some(a) = self.write_answers.oldest() {
            o.bvalid = true;
            o.bid = a.id;
            o.bresp = a.code;
        }
        if let Some(r) = self.read_beats.oldest() {
            o.rvalid = true;
            o.rid = r.id;
            o.rdata = r.data;
            o.rresp = r.code;
            o.rlast = r.last;
        }
        if self.writer.state == WriteState::Send {
            if !self.writer.law_done {
                o.lawvalid = true;
                o.lawaddr = self.writer.part;
                o.lawprot = self.writer.prot;
            }
            if !self.writer.lw_done {
                o.lwvalid = true;
                o.lwdata = self.writer.lower.data;
                o.lwstrb = self.writer.lower.strb;
            }
        }
        if self.reader.state == ReadState::Send {
            o.larvalid = true;
            o.laraddr = self.reader.part;
            o.larprot = self.reader.prot;
        }
        o
    }

    /// Writes owed and reads owed.
    pub fn owed(&self) -> (usize, usize) {
        let writes = self.write_bursts.len()
            + (self.writer.state != WriteState::Idle) as usize
            + self.write_answers.len();
        let reads = self.read_bursts.len()
            + (self.reader.state != ReadState::Idle) as usize
            + self.read_beats.iter().filter(|r| r.last).count();
        (writes, reads)
    }

    #[inline]
    fn refusal(&self, x: &Inputs) -> Option<Refusal> {
        if matches!(&x.aw, Some(b) if !b.fits()) {
            return Some(Refusal::WriteBurst);
        }
        if matches!(&x.w, Some(d) if !self.plan.upper_fits(d)) {
            return Some(Refusal::DataBeat);
        }
        if matches!(&x.ar, Some(b) if !b.fits()) {
            return Some(Refusal::ReadBurst);
        }
        if matches!(x.lb, Some(code) if code > 3) {
            return Some(Refusal::WriteCode);
        }
        if matches!(&x.lr, Some(p) if p.code > 3 || !self.plan.lower_fits(p.data)) {
            return Some(Refusal::ReadPart);
        }
        None
    }

    fn reset(&mut self) {
        self.writer = RESTING_WRITER;
        self.reader = RESTING_READER;
        self.write_bursts.clear();
        self.data_beats.clear();
        self.write_answers.clear();
        self.read_bursts.clear();
        self.read_beats.clear();
    }

    /// One rising edge. A refused one leaves everything as it was.
    #[inline]
    pub fn edge(&mut self, x: &Inputs) -> Result<Outcome, Refusal> {
        if !x.aresetn {
            self.reset();
            return Ok(Outcome::default());
        }
        if let Some(no) = self.refusal(x) {
            return Err(no);
        }
        let mut out = Outcome::default();

        // The tables as they are before the edge decide, so all room is looked up first.
        let aw_room = !self.write_bursts.full();
        let w_room = !self.data_beats.full();
        let ar_room = !self.read_bursts.full();
        let b_room = !self.write_answers.full();
        let r_room = !self.read_beats.full();

        // B and R leave before the engines append, so what is shown is what leaves.
        if x.bready && self.write_answers.take().is_some() {
            out.crossed |= chan::B;
        }
        if x.rready && self.read_beats.take().is_some() {
            out.crossed |= chan::R;
        }

        // The engines move before AW, W and AR enter, so they see only what waited before.
        self.move_writer(x, b_room, &mut out.crossed);
        self.move_reader(x, r_room, &mut out.crossed);

        if let (Some(burst), true) = (&x.aw, aw_room) {
            let judged = self.plan.judge(burst);
            self.write_bursts.put(Waiting { burst: *burst, verdict: judged.verdict });
            out.write = Some(judged);
            out.crossed |= chan::AW;
        }
        if let (Some(d), true) = (&x.w, w_room) {
            self.data_beats.put(*d);
            out.crossed |= chan::W;
        }
        if let (Some(burst), true) = (&x.ar, ar_room) {
            let judged = self.plan.judge(burst);
            self.read_bursts.put(Waiting { burst: *burst, verdict: judged.verdict });
            out.read = Some(judged);
            out.crossed |= chan::AR;
        }
        Ok(out)
    }

    #[inline]
    fn move_writer(&mut self, x: &Inputs, b_room: bool, crossed: &mut u16) {
        let e = &mut self.writer;
        match e.state {
            WriteState::Idle => {
                if let Some(next) = self.write_bursts.take() {
                    e.forwarded = next.verdict == Verdict::Forwarded;
                    e.id = next.burst.id;
                    e.prot = next.burst.prot;
                    e.code = if e.forwarded { OKAY } else { SLVERR };
                    e.walk = Walk::new(&next.burst);
                    e.state = WriteState::Fetch;
                }
            }
            WriteState::Fetch => {
                if let Some(beat) = self.data_beats.take() {
                    if e.forwarded {
                        e.beat = beat;
                        e.send(&self.plan, e.walk.beat);
                    } else if e.walk.left > 0 {
                        e.walk.left -= 1;
                    } else {
                        e.state = WriteState::Close;
                    }
                }
            }
            WriteState::Send => {
                if x.lawready && !e.law_done {
                    e.law_done = true;
                    *crossed |= chan::LAW;
                }
                if x.lwready && !e.lw_done {
                    e.lw_done = true;
                    *crossed |= chan::LW;
                }
                if e.law_done && e.lw_done {
                    e.state = WriteState::Await;
                }
            }
            WriteState::Await => {
                if let Some(code) = x.lb {
                    *crossed |= chan::LB;
                    e.code = join(e.code, heard(code));
                    if let Some(next) = self.plan.part_after(e.part, e.walk.bytes) {
                        e.send(&self.plan, next);
                    } else if e.walk.left > 0 {
                        e.walk.step();
                        e.state = WriteState::Fetch;
                    } else {
                        e.state = WriteState::Close;
                    }
                }
            }
            WriteState::Close => {
                if b_room {
                    self.write_answers.put(WriteAnswer { id: e.id, code: e.code });
                    e.state = WriteState::Idle;
                }
            }
        }
    }

    #[inline]
    fn move_reader(&mut self, x: &Inputs, r_room: bool, crossed: &mut u16) {
        let e = &mut self.reader;
        match e.state {
            ReadState::Idle => {
                if let Some(next) = self.read_bursts.take() {
                    e.forwarded = next.verdict == Verdict::Forwarded;
                    e.id = next.burst.id;
                    e.prot = next.burst.prot;
                    e.walk = Walk::new(&next.burst);
                    e.begin();
                }
            }
            ReadState::Send => {
                if x.larready {
                    *crossed |= chan::LAR;
                    e.state = ReadState::Await;
                }
            }
            ReadState::Await => {
                if let Some(part) = &x.lr {
                    *crossed |= chan::LR;
                    e.data |= self.plan.up(e.part, part.data);
                    e.code = join(e.code, heard(part.code));
                    match self.plan.part_after(e.part, e.walk.bytes) {
                        Some(next) => {
                            e.part = next;
                            e.state = ReadState::Send;
                        }
                        None => e.state = ReadState::Close,
                    }
                }
            }
            ReadState::Close => {
                if r_room {
                    let last = e.walk.left == 0;
                    self.read_beats.put(ReadBeat { data: e.data, id: e.id, code: e.code, last });
                    if last {
                        e.state = ReadState::Idle;
                    } else {
                        e.walk.step();
                        e.begin();
                    }
                }
            }
        }
    }
}

impl Writer {
    #[inline]
    fn send(&mut self, plan: &Plan, part: u32) {
        self.part = part;
        self.lower = plan.down(part, &self.beat);
        self.law_done = false;
        self.lw_done = false;
        self.state = WriteState::Send;
    }
}

impl Reader {
    #[inline]
    fn begin(&mut self) {
        self.data = 0;
        if self.forwarded {
            self.part = self.walk.beat;
            self.code = OKAY;
            self.state = ReadState::Send;
        } else {
            self.code = SLVERR;
            self.state = ReadState::Close;
        }
    }
}

/// What the coverage looks at. No part of the bridge's calls.
#[derive(Clone, Copy, Debug)]
pub struct Inside {
    pub write_state: WriteState,
    pub read_state: ReadState,
    pub write_forwarded: bool,
    pub read_forwarded: bool,
    pub write_code: u8,
    pub read_code: u8,
    pub law_done: bool,
    pub lw_done: bool,
    /// write bursts, data beats, write answers, read bursts, read beats
    pub full: [bool; 5],
    pub empty: [bool; 5],
}

impl Bridge {
    pub fn inside(&self) -> Inside {
        let (w, r) = (&self.writer, &self.reader);
        Inside {
            write_state: w.state,
            read_state: r.state,
            write_forwarded: w.forwarded,
            read_forwarded: r.forwarded,
            write_code: w.code,
            read_code: r.code,
            law_done: w.law_done,
            lw_done: w.lw_done,
            full: [
                self.write_bursts.full(),
                self.data_beats.full(),
                self.write_answers.full(),
                self.read_bursts.full(),
                self.read_beats.full(),
            ],
            empty: [
                self.write_bursts.is_empty(),
                self.data_beats.is_empty(),
                self.write_answers.is_empty(),
                self.read_bursts.is_empty(),
                self.read_beats.is_empty(),
            ],
        }
    }
}

//! What a run of scripts has reached, seen from inside the model while it plays.

use std::fmt::Write as _;

use crate::bridge::{chan, Bridge, Inputs, Inside, Outcome, ReadState, Wires, WriteState};
use crate::player::Watch;
use crate::reader::{Fault, Row, Script};
use crate::rules::*;

pub const DAMAGES: [&str; 12] = [
    "none",
    "cut",
    "byte changed",
    "separator doubled",
    "17 digits",
    "upper case digit",
    "final 0a missing",
    "extra bytes",
    "wrong count",
    "word removed",
    "above carrier",
    "separator swapped",
];

const SECTIONS: [&str; 7] = ["bridge", "writes", "beats", "reads", "wcodes", "rparts", "gates"];
const TABLES: [&str; 5] = ["write bursts", "data beats", "write answers", "read bursts", "read beats"];
const WRITE_STATES: [&str; 5] = ["Idle", "Fetch", "Send", "Await", "Close"];
const READ_STATES: [&str; 4] = ["Idle", "Send", "Await", "Close"];
const DIRECTIONS: [&str; 2] = ["write", "read"];

/// Things that are reached by direction (0 write, 1 read).
#[derive(Clone, Copy)]
enum Point {
    WideTwoParts,
    WideOnePart,
    NarrowOnUpperLanes,
    Exokay,
    SlvThenDec,
    DecThenSlv,
    OkayThenError,
    ErrorThenOkay,
    RefusedOneBeat,
    RefusedSeveralBeats,
    TopForwarded,
    TopRefused,
    PageEndExact,
    PageEndPassed,
    UnalignedFixed,
    UnalignedIncr,
    AnsweredOkay,
    AnsweredSlverr,
    AnsweredDecerr,
    Locked,
    Cached,
    TwoHundredFiftySixBeats,
    WrapReturns,
}

const POINTS: [&str; 23] = [
    "wide beat over narrow block, two parts",
    "wide beat over narrow block, upper part only",
    "narrow beat on the upper lanes (U 8, L 4)",
    "EXOKAY from the block",
    "SLVERR joined with later DECERR",
    "DECERR joined with later SLVERR",
    "OKAY joined with later error",
    "error joined with later OKAY",
    "refused burst of one beat",
    "refused burst of several beats",
    "forwarded burst that ends at the top of the space",
    "burst refused (6) at the top of the space",
    "INCR that ends exactly at 4096",
    "INCR that ends just after 4096",
    "unaligned first beat, FIXED, forwarded",
    "unaligned first beat, INCR, forwarded",
    "answered OKAY",
    "answered SLVERR, burst forwarded",
    "answered DECERR",
    "forwarded with LOCK 1",
    "forwarded with CACHE not 0",
    "burst of 256 beats",
    "WRAP that returns to its base, forwarded",
];

pub struct Tally {
    pub scripts: u64,
    pub sound: u64,
    pub edges: u64,
    pub lengths: [u64; 5],
    longest_sound: u64,
    pub damage: [u64; DAMAGES.len()],
    plans: [[u64; 3]; 3],
    kinds: [[[u64; 3]; 3]; 2],
    sizes: [[[u64; 4]; 3]; 2],
    verdicts: [[u64; 11]; 2],
    protect: [[u64; 11]; 2],
    refusals: [u64; 25],
    /// fields 4: ID SIZE BURST LOCK CACHE PROT, 5: WDATA WSTRB, 6: as 4, 7: LBRESP, 8: LRDATA LRRESP
    fields: [u64; 17],
    refused_not_ready: [u64; 5],
    refused_several: u64,
    never_offered: u64,
    rows: [[u64; 7]; 12],
    states: [[u64; 4]; 5],
    held: [[[u64; 10]; 4]; 5],
    pushed: [[[u64; 10]; 4]; 5],
    full: [u64; 5],
    empty: [u64; 5],
    through: [u64; 5],
    full_leaving_offered: [u64; 5],
    send_law_first: u64,
    send_lw_first: u64,
    send_together: u64,
    points: [[u64; POINTS.len()]; 2],
    beat_error_not_spread: u64,
    strobes_low_w: u64,
    strobes_low_lw: u64,
    gates: Vec<u64>,
    owed_at_end: u64,
    nothing_owed: u64,
    // the edge at hand
    now: Option<(Inside, Inputs, Wires)>,
    plan: Option<Plan>,
    last_read_code: u8,
    /// answers of the block to the write burst and the read beat at hand
    heard: [u32; 2],
    too_large_left: bool,
}

impl Default for Tally {
    fn default() -> Tally {
        Tally {
            scripts: 0,
            sound: 0,
            edges: 0,
            lengths: [0; 5],
            longest_sound: 0,
            damage: [0; DAMAGES.len()],
            plans: [[0; 3]; 3],
            kinds: [[[0; 3]; 3]; 2],
            sizes: [[[0; 4]; 3]; 2],
            verdicts: [[0; 11]; 2],
            protect: [[0; 11]; 2],
            refusals: [0; 25],
            fields: [0; 17],
            refused_not_ready: [0; 5],
            refused_several: 0,
            never_offered: 0,
            rows: [[0; 7]; 12],
            states: [[0; 4]; 5],
            held: [[[0; 10]; 4]; 5],
            pushed: [[[0; 10]; 4]; 5],
            full: [0; 5],
            empty: [0; 5],
            through: [0; 5],
            full_leaving_offered: [0; 5],
            send_law_first: 0,
            send_lw_first: 0,
            send_together: 0,
            points: [[0; POINTS.len()]; 2],
            beat_error_not_spread: 0,
            strobes_low_w: 0,
            strobes_low_lw: 0,
            gates: vec![0; 1024],
            owed_at_end: 0,
            nothing_owed: 0,
            now: None,
            plan: None,
            last_read_code: 0,
            heard: [0; 2],
            too_large_left: false,
        }
    }
}

fn pair(plan: &Plan) -> usize {
    match (plan.upper(), plan.lower()) {
        (4, _) => 0,
        (_, 4) => 1,
        _ => 2,
    }
}

fn wrong_burst_fields(b: &Burst) -> [bool; 6] {
    [b.id > 4095, b.size > 7, b.kind > 3, b.lock > 1, b.cache > 15, b.prot > 7]
}

impl Tally {
    fn point(&mut self, d: usize, p: Point) {
        self.points[d][p as usize] += 1;
    }

    fn burst(&mut self, d: usize, b: &Burst, j: &Judged) {
        let plan = self.plan.expect("a plan while playing");
        self.verdicts[d][j.verdict as usize] += 1;
        self.protect[d][j.protect as usize] += 1;
        let end = (b.addr - b.addr % b.bytes()) as u64 + (b.beats() * b.bytes()) as u64;
        let page_end = (b.addr as u64 & !4095) + 4096;
        if b.kind == INCR && b.bytes() <= plan.upper() {
            if end == page_end {
                self.point(d, Point::PageEndExact);
            } else if end > page_end {
                self.point(d, Point::PageEndPassed);
            }
        }
        if b.len == 255 {
            self.point(d, Point::TwoHundredFiftySixBeats);
        }
        if j.verdict != Verdict::Forwarded {
            self.point(d, if b.len == 0 { Point::RefusedOneBeat } else { Point::RefusedSeveralBeats });
            if j.verdict == Verdict::CrossesBoundary && page_end == 1 << 32 {
                self.point(d, Point::TopRefused);
            }
            return;
        }
        self.kinds[d][pair(&plan)][b.kind as usize] += 1;
        self.sizes[d][pair(&plan)][b.size as usize] += 1;
        let s = b.bytes() as u64;
        let top = (0..b.beats()).map(|i| b.address(i)).max().unwrap_or(0);
        if top - top % s + s == 1 << 32 {
            self.point(d, Point::TopForwarded);
        }
        if b.addr % b.bytes() != 0 {
            self.point(d, if b.kind == FIXED { Point::UnalignedFixed } else { Point::UnalignedIncr });
        }
        if s == 8 && plan.lower() == 4 {
            for i in 0..b.beats() {
                let two = plan.parts(b.address(i) as u32, 8).len() == 2;
                self.point(d, if two { Point::WideTwoParts } else { Point::WideOnePart });
            }
        } else if plan.upper() > plan.lower() && plan.lane(b.addr) == 4 {
            self.point(d, Point::NarrowOnUpperLanes);
        }
        if b.kind == WRAP && b.address(b.beats() - 1) < b.address(0) {
            self.point(d, Point::WrapReturns);
        }
        if b.lock == 1 {
            self.point(d, Point::Locked);
        }
        if b.cache != 0 {
            self.point(d, Point::Cached);
        }
    }

    fn code(&mut self, d: usize, so_far: u8, code: u8) {
        let first = self.heard[d] == 0;
        self.heard[d] += 1;
        if code == EXOKAY {
            self.point(d, Point::Exokay);
        }
        match (so_far, heard(code)) {
            (SLVERR, DECERR) => self.point(d, Point::SlvThenDec),
            (DECERR, SLVERR) => self.point(d, Point::DecThenSlv),
            (OKAY, 2..) if !first => self.point(d, Point::OkayThenError),
            (2.., OKAY) => self.point(d, Point::ErrorThenOkay),
            _ => (),
        }
    }

    fn answer(&mut self, d: usize, code: u8) {
        match code {
            OKAY => self.point(d, Point::AnsweredOkay),
            DECERR => self.point(d, Point::AnsweredDecerr),
            _ => (),
        }
    }

    /// After each script: what the transcript ended with.
    pub fn ends(&mut self, script: &[u8], transcript: &[u8], sound: bool) {
        self.scripts += 1;
        self.sound += sound as u64;
        let class = match script.len() {
            0..=2047 => 0,
            2048..=16383 => 1,
            16384 => 2,
            16385 => 3,
            _ => 4,
        };
        self.lengths[class] += 1;
        self.longest_sound += (sound && class == 2) as u64;
        if sound {
            if transcript.ends_with(b"owed 0 0\n") {
                self.nothing_owed += 1;
            } else {
                self.owed_at_end += 1;
            }
            self.never_offered += self.too_large_left as u64;
        }
        self.too_large_left = false;
    }

    /// Cells of states and channels that no run can reach.
    fn possible(held: bool, w: usize, r: usize, channel: usize) -> bool {
        match (held, channel) {
            (true, 5 | 6) => w == 2,
            (true, 7) => w == 3,
            (false, 7) => w != 3,
            (true, 8) => r == 1,
            (false, 8) => r != 1,
            (true, 9) => r == 2,
            (false, 9) => r != 2,
            _ => true,
        }
    }
}

impl Watch for Tally {
    fn unread(&mut self, f: &Fault) {
        self.refusals[f.row.number() as usize] += 1;
        self.rows[f.row as usize][f.section] += 1;
    }

    fn no_plan(&mut self, no: Refusal) {
        self.refusals[no.number() as usize] += 1;
    }

    fn begins(&mut self, script: &Script, plan: &Plan) {
        self.plan = Some(*plan);
        self.plans[pair(plan)][plan.level() as usize] += 1;
        self.last_read_code = OKAY;
        self.heard = [0; 2];
        self.too_large_left = script.writes.iter().chain(&script.reads).any(|b| !b.fits())
            || script.beats.iter().any(|d| !plan.upper_fits(d))
            || script.wcodes.iter().any(|&c| c > 3)
            || script.rparts.iter().any(|p| p.code > 3 || !plan.lower_fits(p.data));
    }

    fn before(&mut self, bridge: &Bridge, gate: u16, x: &Inputs, o: &Wires) {
        let me = bridge.inside();
        self.edges += 1;
        self.gates[gate as usize] += 1;
        let (w, r) = (me.write_state as usize, me.read_state as usize);
        self.states[w][r] += 1;
        // (wire of the bridge, wire of master or block) of each channel
        let wires = [
            (o.awready, x.aw.is_some()),
            (o.wready, x.w.is_some()),
            (o.bvalid, x.bready),
            (o.arready, x.ar.is_some()),
            (o.rvalid, x.rready),
            (o.lawvalid, x.lawready),
            (o.lwvalid, x.lwready),
            (o.lbready, x.lb.is_some()),
            (o.larvalid, x.larready),
            (o.lrready, x.lr.is_some()),
        ];
        for (c, wire) in wires.iter().enumerate() {
            match wire {
                (true, false) => self.held[w][r][c] += 1,
                (false, true) => self.pushed[w][r][c] += 1,
                _ => (),
            }
        }
        for t in 0..5 {
            self.full[t] += me.full[t] as u64;
            self.empty[t] += me.empty[t] as u64;
        }
        self.now = Some((me, *x, *o));
    }

    fn after(&mut self, bridge: &Bridge, result: &Result<Outcome, Refusal>) {
        let (me, x, o) = self.now.take().expect("an edge at hand");
        let out = match result {
            Ok(out) => *out,
            Err(no) => {
                self.refusals[no.number() as usize] += 1;
                let plan = self.plan.expect("a plan while playing");
                let aw = x.aw.map_or([false; 6], |b| wrong_burst_fields(&b));
                let ar = x.ar.map_or([false; 6], |b| wrong_burst_fields(&b));
                let w = x.w.map_or([false; 2], |d| {
                    let data = plan.upper_fits(&Data { data: d.data, strb: 0 });
                    [!data, !plan.upper_fits(&Data { data: 0, strb: d.strb })]
                });
                let lb = x.lb.is_some_and(|c| c > 3);
                let lr = x.lr.map_or([false; 2], |p| [!plan.lower_fits(p.data), p.code > 3]);
                let wrong = [aw.contains(&true), w.contains(&true), ar.contains(&true), lb, lr.contains(&true)];
                let ready = [o.awready, o.wready, o.arready, o.lbready, o.lrready];
                let which = no.number() as usize - 4;
                self.refused_not_ready[which] += !ready[which] as u64;
                self.refused_several += (wrong.iter().filter(|&&b| b).count() > 1) as u64;
                let mut flat = [false; 17];
                match which {
                    0 => flat[..6].copy_from_slice(&aw),
                    1 => flat[6..8].copy_from_slice(&w),
                    2 => flat[8..14].copy_from_slice(&ar),
                    3 => flat[14] = lb,
                    _ => flat[15..].copy_from_slice(&lr),
                }
                for (k, f) in flat.iter().enumerate() {
                    self.fields[k] += *f as u64;
                }
                return;
            }
        };
        let then = bridge.inside();
        let crossed = |c: u16| out.crossed & c != 0;

        if let (Some(j), Some(b)) = (out.write, x.aw) {
            self.burst(0, &b, &j);
        }
        if let (Some(j), Some(b)) = (out.read, x.ar) {
            self.burst(1, &b, &j);
        }
        if crossed(chan::W) && x.w.is_some_and(|d| d.strb == 0) {
            self.strobes_low_w += 1;
        }
        if crossed(chan::LW) && o.lwstrb == 0 {
            self.strobes_low_lw += 1;
        }
        match (crossed(chan::LAW), crossed(chan::LW)) {
            (true, true) => self.send_together += 1,
            (true, false) if !me.lw_done => self.send_law_first += 1,
            (false, true) if !me.law_done => self.send_lw_first += 1,
            _ => (),
        }
        if me.write_state == WriteState::Close {
            self.heard[0] = 0;
        }
        if me.read_state == ReadState::Close {
            self.heard[1] = 0;
        }
        if let (true, Some(code)) = (crossed(chan::LB), x.lb) {
            self.code(0, me.write_code, code);
        }
        if let (true, Some(p)) = (crossed(chan::LR), x.lr) {
            self.code(1, me.read_code, p.code);
        }
        if crossed(chan::B) {
            self.answer(0, o.bresp);
        }
        if crossed(chan::R) {
            self.answer(1, o.rresp);
            if self.last_read_code != OKAY && o.rresp == OKAY {
                self.beat_error_not_spread += 1;
            }
            self.last_read_code = if o.rlast { OKAY } else { o.rresp };
        }
        // SLVERR of a forwarded burst is told apart inside, when the engine closes.
        if me.write_state == WriteState::Close
            && then.write_state == WriteState::Idle
            && me.write_forwarded
            && me.write_code == SLVERR
        {
            self.point(0, Point::AnsweredSlverr);
        }
        if me.read_state == ReadState::Close
            && !me.full[4]
            && me.read_forwarded
            && me.read_code == SLVERR
        {
            self.point(1, Point::AnsweredSlverr);
        }
        let write_taken = me.write_state == WriteState::Idle && !me.empty[0];
        let beat_taken = me.write_state == WriteState::Fetch && !me.empty[1];
        let read_taken = me.read_state == ReadState::Idle && !me.empty[3];
        let leaves = [write_taken, beat_taken, crossed(chan::B), read_taken, crossed(chan::R)];
        let offered = [
            x.aw.is_some(),
            x.w.is_some(),
            me.write_state == WriteState::Close,
            x.ar.is_some(),
            me.read_state == ReadState::Close,
        ];
        for t in 0..5 {
            if leaves[t] && offered[t] {
                if me.full[t] {
                    self.full_leaving_offered[t] += 1;
                } else {
                    self.through[t] += 1;
                }
            }
        }
    }
}

/// The table, and how many required things were not reached.
pub fn report(t: &Tally) -> (String, usize) {
    let mut s = String::new();
    let mut missing = 0;
    let mut need = |v: u64| -> String {
        if v == 0 {
            missing += 1;
            "MISSING".into()
        } else {
            v.to_string()
        }
    };
    let _ = writeln!(s, "scripts {}, played to the end {}, edges {}", t.scripts, t.sound, t.edges);
    let names = ["below 2048 bytes", "2048 to 16383", "16384", "16385", "longer"];
    for (name, v) in names.iter().zip(t.lengths) {
        let v = if *name == "longer" { v.to_string() } else { need(v) };
        let _ = writeln!(s, "  length {name}: {v}");
    }
    let _ = writeln!(s, "  length 16384 and played to the end: {}", need(t.longest_sound));
    let _ = writeln!(s, "ended with nothing owed {}, something owed {}", need(t.nothing_owed), need(t.owed_at_end));

    let _ = writeln!(s, "\ndamage done");
    for (name, v) in DAMAGES.iter().zip(t.damage) {
        let _ = writeln!(s, "  {name}: {}", need(v));
    }

    let _ = writeln!(s, "\nplans                level 0  level 1  level 2");
    let pairs = ["U 4 L 4", "U 8 L 4", "U 8 L 8"];
    for (name, row) in pairs.iter().zip(t.plans) {
        let _ = writeln!(s, "  {name:<16} {:>9}{:>9}{:>9}", need(row[0]), need(row[1]), need(row[2]));
    }

    for d in 0..2 {
        let _ = writeln!(s, "\nforwarded {}s       FIXED     INCR     WRAP   |    S 1    S 2    S 4    S 8", DIRECTIONS[d]);
        for p in 0..3 {
            let k: Vec<String> = t.kinds[d][p].iter().map(|&v| need(v)).collect();
            let z: Vec<String> = (0..4)
                .map(|z| if p == 0 && z == 3 { "-".into() } else { need(t.sizes[d][p][z]) })
                .collect();
            let _ = writeln!(
                s,
                "  {:<14}{:>9}{:>9}{:>9}   |{:>7}{:>7}{:>7}{:>7}",
                pairs[p], k[0], k[1], k[2], z[0], z[1], z[2], z[3]
            );
        }
    }

    let _ = writeln!(s, "\nverdict              0     1     2     3     4     5     6     7     8     9    10");
    for (name, row, d) in [("AW", &t.verdicts, 0), ("AR", &t.verdicts, 1), ("AW full prot.", &t.protect, 0), ("AR full prot.", &t.protect, 1)] {
        let _ = write!(s, "  {name:<14}");
        for v in row[d] {
            let _ = write!(s, "{:>6}", need(v));
        }
        let _ = writeln!(s);
    }

    let _ = write!(s, "\nrefusals and faults\n ");
    for k in (1..=8).chain(20..=24) {
        let _ = write!(s, " {k}: {}", need(t.refusals[k]));
    }
    let _ = write!(s, "\n  by field:");
    let fields = [
        "AWID", "AWSIZE", "AWBURST", "AWLOCK", "AWCACHE", "AWPROT", "WDATA", "WSTRB", "ARID", "ARSIZE",
        "ARBURST", "ARLOCK", "ARCACHE", "ARPROT", "LBRESP", "LRDATA", "LRRESP",
    ];
    for (name, v) in fields.iter().zip(t.fields) {
        let _ = write!(s, " {name} {}", need(v));
    }
    let _ = write!(s, "\n  READY low:");
    for (k, v) in t.refused_not_ready.iter().enumerate() {
        let _ = write!(s, " {}: {}", k + 4, need(*v));
    }
    let _ = writeln!(s, "\n  several on one edge: {}", need(t.refused_several));
    let _ = writeln!(s, "  too large but never offered, played to the end: {}", need(t.never_offered));

    let _ = write!(s, "\nreading rows        ");
    for name in SECTIONS {
        let _ = write!(s, "{name:>9}");
    }
    let _ = writeln!(s);
    for row in Row::ALL {
        let _ = write!(s, "  {:<18}", format!("{row:?}"));
        for k in 0..7 {
            let v = t.rows[row as usize][k];
            let only = match row {
                Row::TooLong => k == 0,
                Row::BytesAfter => k == 6,
                _ => true,
            };
            let _ = write!(s, "{:>9}", if only { need(v) } else { "-".into() });
        }
        let _ = writeln!(s);
    }

    let _ = writeln!(s, "\ntables              full    empty   in and out   full, one leaves, one offered");
    for k in 0..5 {
        let _ = writeln!(
            s,
            "  {:<14}{:>8}{:>9}{:>13}{:>13}",
            TABLES[k],
            need(t.full[k]),
            need(t.empty[k]),
            need(t.through[k]),
            need(t.full_leaving_offered[k])
        );
    }

    let _ = writeln!(s, "\nSend of a write part: LAW first {}, LW first {}, together {}", need(t.send_law_first), need(t.send_lw_first), need(t.send_together));

    for (title, cells, held) in [
        ("stalled by master or block (the bridge's wire is high, the other one low)", &t.held, true),
        ("stalled by the bridge (its wire is low, the other one high)", &t.pushed, false),
    ] {
        let _ = write!(s, "\n{title}\n  write  read    edges");
        for name in chan::NAMES {
            let _ = write!(s, "{name:>8}");
        }
        let _ = writeln!(s);
        for w in 0..5 {
            for r in 0..4 {
                let _ = write!(s, "  {:<6} {:<6}{:>7}", WRITE_STATES[w], READ_STATES[r], need(t.states[w][r]));
                for c in 0..10 {
                    let v = cells[w][r][c];
                    let text = if Tally::possible(held, w, r, c) {
                        need(v)
                    } else if v == 0 {
                        "-".into()
                    } else {
                        format!("{v}?!")
                    };
                    let _ = write!(s, "{text:>8}");
                }
                let _ = writeln!(s);
            }
        }
    }

    let _ = writeln!(s, "\npoints                                                write     read");
    for (k, name) in POINTS.iter().enumerate() {
        let _ = writeln!(s, "  {name:<50}{:>7}{:>9}", need(t.points[0][k]), need(t.points[1][k]));
    }
    let _ = writeln!(s, "  error in one read beat, OKAY in a later one: {}", need(t.beat_error_not_spread));
    let _ = writeln!(s, "  strobes all low: on W {}, on LW {}", need(t.strobes_low_w), need(t.strobes_low_lw));
    let seen = t.gates.iter().filter(|&&v| v > 0).count();
    let _ = writeln!(s, "  gate patterns: {seen} of 1024{}", if seen == 1024 { "" } else { " MISSING" });
    missing += (seen != 1024) as usize;
    (s, missing)
}

//! Scripts from a seed: drafts in numbers, their bytes, and damage done to the bytes.

use crate::dice::Dice;
use crate::rules::{Burst, Plan, FIXED, INCR, WRAP};

/// A script in numbers. Any value can stand anywhere.
#[derive(Clone, Default)]
pub struct Draft {
    pub bridge: [u64; 3],
    pub writes: Vec<[u64; 8]>,
    pub beats: Vec<[u64; 2]>,
    pub reads: Vec<[u64; 8]>,
    pub wcodes: Vec<[u64; 1]>,
    pub rparts: Vec<[u64; 2]>,
    pub gates: Vec<[u64; 1]>,
}

/// How numbers are written.
#[derive(Clone, Copy, PartialEq)]
pub enum Zeros {
    None,
    /// on every so many numbers, in percent
    Some(u64),
}

fn number(to: &mut Vec<u8>, v: u64, digits: usize) {
    to.extend_from_slice(format!("{v:0digits$x}").as_bytes());
}

impl Draft {
    pub fn plan(&self) -> Option<Plan> {
        let [u, l, level] = self.bridge;
        Plan::new(u8::try_from(u).ok()?, u8::try_from(l).ok()?, u8::try_from(level).ok()?).ok()
    }

    pub fn bytes(&self, zeros: Zeros, dice: &mut Dice) -> Vec<u8> {
        let mut to = Vec::with_capacity(1024);
        let mut line = |to: &mut Vec<u8>, name: &str, numbers: &[u64]| {
            to.extend_from_slice(name.as_bytes());
            for (k, &v) in numbers.iter().enumerate() {
                if k > 0 || !name.is_empty() {
                    to.push(b' ');
                }
                let digits = match zeros {
                    Zeros::Some(p) if dice.percent(p) => dice.range(1, 16) as usize,
                    _ => 1,
                };
                number(to, v, digits);
            }
            to.push(b'\n');
        };
        line(&mut to, "bridge", &self.bridge);
        line(&mut to, "writes", &[self.writes.len() as u64]);
        self.writes.iter().for_each(|f| line(&mut to, "", f));
        line(&mut to, "beats", &[self.beats.len() as u64]);
        self.beats.iter().for_each(|f| line(&mut to, "", f));
        line(&mut to, "reads", &[self.reads.len() as u64]);
        self.reads.iter().for_each(|f| line(&mut to, "", f));
        line(&mut to, "wcodes", &[self.wcodes.len() as u64]);
        self.wcodes.iter().for_each(|f| line(&mut to, "", f));
        line(&mut to, "rparts", &[self.rparts.len() as u64]);
        self.rparts.iter().for_each(|f| line(&mut to, "", f));
        line(&mut to, "gates", &[self.gates.len() as u64]);
        self.gates.iter().for_each(|f| line(&mut to, "", f));
        to
    }

    /// Beats and parts that the bursts of one direction ask for.
    fn demand(&self, bursts: &[[u64; 8]]) -> (usize, usize) {
        let Some(plan) = self.plan() else { return (0, 0) };
        let mut sum = (0, 0);
        for f in bursts {
            let b = as_burst(f);
            sum.0 += b.beats() as usize;
            if plan.judge(&b).verdict.number() == 0 {
                for i in 0..b.beats() {
                    sum.1 += plan.parts(b.address(i) as u32, b.bytes()).len();
                }
            }
        }
        sum
    }

    /// Gives the data beats and the block's answers that all bursts need.
    pub fn supply(&mut self, dice: &mut Dice) {
        let (beats, parts) = self.demand(&self.writes);
        while self.beats.len() < beats {
            let beat = data_beat(dice, self.bridge[0]);
            self.beats.push(beat);
        }
        while self.wcodes.len() < parts {
            let code = [code(dice)];
            self.wcodes.push(code);
        }
        let (_, parts) = self.demand(&self.reads);
        while self.rparts.len() < parts {
            let part = [data(dice, self.bridge[1]), code(dice)];
            self.rparts.push(part);
        }
    }

    /// Edges that are enough without stalls if both directions run at once.
    pub fn edges(&self) -> usize {
        let (n, p) = self.demand(&self.writes);
        let (m, q) = self.demand(&self.reads);
        let w = n + 2 * p + 3 * self.writes.len();
        let r = m + 2 * q + 2 * self.reads.len();
        w.max(r) + 3
    }
}

pub fn as_burst(f: &[u64; 8]) -> Burst {
    Burst {
        id: f[0] as u16,
        addr: f[1] as u32,
        len: f[2] as u8,
        size: f[3] as u8,
        kind: f[4] as u8,
        lock: f[5] as u8,
        cache: f[6] as u8,
        prot: f[7] as u8,
    }
}

fn width_max(width: u64) -> u64 {
    if width == 4 {
        0xffff_ffff
    } else {
        u64::MAX
    }
}

fn data(dice: &mut Dice, width: u64) -> u64 {
    let v = match dice.below(8) {
        0 => 0,
        1 => u64::MAX,
        2 => dice.below(256),
        3 => 0x1122_3344_5566_7788,
        4 => 1 << dice.below(64),
        _ => dice.next(),
    };
    v & width_max(width)
}

fn data_beat(dice: &mut Dice, upper: u64) -> [u64; 2] {
    let all = if upper == 4 { 0xf } else { 0xff };
    let strobes = match dice.below(6) {
        0 => 0,
        1 => all,
        2 => 0xf0 & all,
        3 => 0x0f,
        _ => dice.next() & all,
    };
    [data(dice, upper), strobes]
}

fn code(dice: &mut Dice) -> u64 {
    match dice.below(10) {
        0..=5 => 0,
        6 => 1,
        7 | 8 => 2,
        _ => 3,
    }
}

const PLANS: [[u64; 2]; 3] = [[4, 4], [8, 4], [8, 8]];

fn log2(v: u64) -> u64 {
    v.trailing_zeros() as u64
}

fn id(dice: &mut Dice) -> u64 {
    match dice.below(4) {
        0 => dice.below(16),
        1 => dice.pick(&[0, 4095]),
        _ => dice.below(4096),
    }
}

fn address(dice: &mut Dice) -> u64 {
    match dice.below(8) {
        0 => dice.below(64),
        1 => 0xffff_ffff - dice.below(48),
        2 => 0x1000 * dice.range(1, 0xf_fffe) - dice.range(1, 40),
        3 => 0x1000 * dice.range(1, 0xf_fffe) + dice.below(32),
        4 => 0x1000 + dice.below(16),
        5 => 0x1000 * dice.range(1, 0xf_fffe),
        _ => dice.below(1 << 32),
    }
}

/// A burst with every field in its range, mostly short.
fn any_burst(dice: &mut Dice, bridge: &[u64; 3], longest: u64) -> [u64; 8] {
    let wide = log2(bridge[0].max(1));
    let size = match dice.below(10) {
        0 => dice.below(8),
        1..=4 => wide.min(3),
        _ => dice.below(wide.min(3) + 1),
    };
    let kind = match dice.below(16) {
        0 => 3,
        1..=4 => FIXED as u64,
        5..=9 => WRAP as u64,
        _ => INCR as u64,
    };
    let mut len = match dice.below(10) {
        0..=2 => 0,
        3 | 4 => 1,
        5 => 3,
        6 => dice.below(6),
        7 => 7,
        8 => dice.below(18),
        _ => dice.below(longest + 1),
    };
    if kind == WRAP as u64 && dice.percent(75) {
        len = dice.pick(&[1, 1, 3, 3, 7, 15]);
    }
    if bridge[2] > 0 && dice.percent(65) {
        len = 0;
    }
    len = len.min(longest);
    let mut addr = address(dice);
    if (kind == WRAP as u64 && dice.percent(85)) || dice.percent(30) {
        addr &= !((1 << size) - 1);
    }
    let quiet = dice.percent(60);
    let lock = if quiet { 0 } else { dice.below(2) };
    let cache = if quiet { 0 } else { dice.below(16) };
    [id(dice), addr, len, size, kind, lock, cache, dice.below(8)]
}

/// A burst that gets the verdict under the plan, if there is one.
fn burst_with(dice: &mut Dice, bridge: &[u64; 3], verdict: u64) -> Option<[u64; 8]> {
    let [upper, lower, level] = *bridge;
    let wide = log2(upper);
    let size = match (verdict, level) {
        (2, _) => dice.range(wide + 1, 7),
        (5, _) => dice.range(1, wide),
        (8, _) if lower < upper => 3,
        (8, _) => return None,
        (9, _) => dice.below(log2(lower)),
        (10, _) | (0, 2) => log2(lower),
        (0, 1) => dice.range(0, log2(lower)),
        _ => dice.range(0, wide),
    };
    if verdict >= 7 && level == 0 || verdict >= 9 && level == 1 {
        return None;
    }
    let low = dice.below(4096);
    let aligned = 0x1000 * dice.range(1, 0xf_ffff) + (low & !127);
    let (addr, len, kind) = match verdict {
        1 => (address(dice), dice.pick(&[0, 2, 16]), 3),
        2 => (address(dice), dice.below(3), dice.below(3)),
        3 => (address(dice), dice.pick(&[16, 17]), 0),
        4 => (address(dice), dice.pick(&[0, 2, 4, 8]), 2),
        5 => (aligned + dice.range(1, (1 << size) - 1), dice.pick(&[1, 3]), 2),
        6 => {
            let n = dice.range(2, 5);
            let end = 0x1000 * if dice.percent(40) { 0x10_0000 } else { dice.range(1, 0xf_ffff) };
            let back = ((n - 1) << size) - dice.below(1 << size);
            (end - back, n - 1, 1)
        }
        7 => (aligned, dice.pick(&[1, 3]), dice.below(3)),
        8 | 9 | 10 => (aligned + dice.below(64), 0, dice.below(2)),
        _ if level > 0 => (aligned + dice.below(64), 0, dice.below(2)),
        _ => {
            let kind = dice.below(3);
            // at most 4 beats of 8 bytes from here, so no page is left
            let skew = dice.below(64);
            let skew = if kind == 2 { skew >> size << size } else { skew };
            (aligned + skew, dice.pick(&[0, 1, 3].as_slice()[(kind == 2) as usize..]), kind)
        }
    };
    let (lock, cache) = match (verdict, level) {
        (10, _) => dice.pick(&[(1, 0), (0, 1), (0, 15), (1, 3)]),
        (_, 2) if verdict == 0 => (0, 0),
        _ => (dice.below(2), dice.below(16)),
    };
    Some([id(dice), addr, len, size, kind, lock, cache, dice.below(8)])
}

/// Gates for so many edges in one of several moods.
fn gates(dice: &mut Dice, edges: usize) -> Vec<[u64; 1]> {
    let mut all = Vec::with_capacity(edges);
    match dice.below(6) {
        0 => all.resize(edges, [0x3ff]),
        1 | 2 => {
            // each wire has its own share of high edges
            let mut share = [0; 10];
            for s in &mut share {
                *s = dice.pick(&[20, 50, 70, 90, 100, 100]);
            }
            for _ in 0..edges {
                let mut g = 0;
                for (bit, &s) in share.iter().enumerate() {
                    g |= (dice.percent(s) as u64) << bit;
                }
                all.push([g]);
            }
        }
        3 | 4 => {
            // wires are held low for a while
            while all.len() < edges {
                let low = if dice.percent(30) { 0 } else { dice.next() & dice.next() & 0x3ff };
                for _ in 0..dice.range(2, 24) {
                    all.push([0x3ff & !low]);
                }
            }
            all.truncate(edges);
        }
        _ => {
            for _ in 0..edges {
                all.push([dice.below(1024)]);
            }
        }
    }
    all
}

/// A random script that can be read. `most` bounds its number of edges.
pub fn random(dice: &mut Dice, most: usize, longest: u64) -> Draft {
    let mut d = Draft::default();
    let pair = dice.pick(&PLANS);
    d.bridge = [pair[0], pair[1], dice.pick(&[0, 0, 0, 1, 2])];
    let (w, r) = (dice.index(8), dice.index(8));
    let tame = dice.percent(50);
    let burst = |dice: &mut Dice| {
        if tame {
            burst_with(dice, &d.bridge, 0).expect("verdict 0 can always be had")
        } else {
            any_burst(dice, &d.bridge, longest)
        }
    };
    for _ in 0..w {
        d.writes.push(burst(dice));
    }
    for _ in 0..r {
        d.reads.push(burst(dice));
    }
    d.supply(dice);
    if dice.percent(25) {
        // too few or too many of something
        let cut = |dice: &mut Dice, n: usize| n - dice.index(3).min(n);
        d.beats.truncate(cut(dice, d.beats.len()));
        d.wcodes.truncate(cut(dice, d.wcodes.len()));
        d.rparts.truncate(cut(dice, d.rparts.len()));
        for _ in 0..dice.index(4) {
            let beat = data_beat(dice, d.bridge[0]);
            d.beats.push(beat);
            let code = [code(dice)];
            d.wcodes.push(code);
            let part = [data(dice, d.bridge[1]), code[0]];
            d.rparts.push(part);
        }
    }
    if dice.percent(8) {
        spoil(dice, &mut d);
    }
    if dice.percent(2) {
        d.bridge[dice.index(3)] = dice.pick(&[0, 1, 2, 3, 4, 5, 8, 0xff]);
    }
    let slow = dice.pick(&[100, 100, 130, 200, 300]);
    let edges = (d.edges() * slow / 100 + 4).min(most);
    let edges = if dice.percent(15) { dice.index(edges + 1) } else { edges };
    d.gates = gates(dice, edges);
    d
}

/// Makes one field of one entry too large (within its carrier).
fn spoil(dice: &mut Dice, d: &mut Draft) {
    let field = dice.index(17);
    spoil_field(dice, d, field);
}

fn spoil_field(dice: &mut Dice, d: &mut Draft, field: usize) -> bool {
    const OVER: [(usize, u64, u64); 6] =
        [(0, 4096, 0xffff), (3, 8, 255), (4, 4, 255), (5, 2, 255), (6, 16, 255), (7, 8, 255)];
    let over = |dice: &mut Dice, low, high| if dice.percent(50) { low } else { dice.range(low, high) };
    match field {
        0..=5 | 8..=13 => {
            let (column, low, high) = OVER[field % 8];
            let list = if field < 8 { &mut d.writes } else { &mut d.reads };
            let n = list.len();
            if n == 0 {
                return false;
            }
            list[dice.index(n)][column] = over(dice, low, high);
        }
        6 | 7 => {
            let n = d.beats.len();
            if n == 0 || d.bridge[0] != 4 {
                return false;
            }
            let (low, high) = if field == 6 { (1 << 32, (1 << 40) - 1) } else { (16, 255) };
            d.beats[dice.index(n)][field - 6] = over(dice, low, high);
        }
        14 => {
            let n = d.wcodes.len();
            if n == 0 {
                return false;
            }
            d.wcodes[dice.index(n)][0] = over(dice, 4, 255);
        }
        15 => {
            let n = d.rparts.len();
            if n == 0 || d.bridge[1] != 4 {
                return false;
            }
            d.rparts[dice.index(n)][0] = over(dice, 1 << 32, (1 << 40) - 1);
        }
        _ => {
            let n = d.rparts.len();
            if n == 0 {
                return false;
            }
            d.rparts[dice.index(n)][1] = over(dice, 4, 255);
        }
    }
    true
}

// ---- damage ----

/// Where the sections stand: (first byte, first byte behind) of all seven.
fn sections(s: &[u8]) -> Vec<(usize, usize)> {
    let mut starts = Vec::new();
    let mut at = 0;
    for line in s.split_inclusive(|&b| b == b'\n') {
        if line[0] > b'f' || line.starts_with(b"bridge") || line.starts_with(b"beats") {
            starts.push(at);
        }
        at += line.len();
    }
    starts.push(s.len());
    starts.windows(2).map(|w| (w[0], w[1])).collect()
}

/// All words in a stretch: (first byte, first byte behind).
fn words(s: &[u8], from: usize, to: usize) -> Vec<(usize, usize)> {
    let mut all = Vec::new();
    let mut start = from;
    for at in from..to {
        if s[at] == b' ' || s[at] == b'\n' {
            if at > start {
                all.push((start, at));
            }
            start = at + 1;
        }
    }
    if to > start {
        all.push((start, to));
    }
    all
}

/// Damages a script somewhere in a stretch. The kinds are those of `cover::DAMAGES`.
fn damage_in(dice: &mut Dice, s: &mut Vec<u8>, kind: usize, from: usize, to: usize) {
    let to = to.min(s.len());
    if from >= to {
        return;
    }
    let at = from + dice.index(to - from);
    let all = words(s, from, to);
    if all.is_empty() {
        return;
    }
    let numbers: Vec<(usize, usize)> = all
        .iter()
        .copied()
        .filter(|w| s[w.0..w.1].iter().all(|b| matches!(b, b'0'..=b'9' | b'a'..=b'f')))
        .collect();
    let word = all[dice.index(all.len())];
    let any_number = if numbers.is_empty() { word } else { numbers[dice.index(numbers.len())] };
    match kind {
        1 => s.truncate(at),
        2 => {
            let old = s[at];
            s[at] = match dice.below(5) {
                0 => dice.pick(b" \n\t\r-gG0x"),
                1 => b'0' + dice.below(10) as u8,
                _ => dice.below(256) as u8,
            };
            if s[at] == old {
                s[at] = !old;
            }
        }
        3 => {
            // behind a word its separator once more, or before the word
            let spot = if dice.percent(70) { word.1.min(s.len() - 1) } else { word.0 };
            let b = if dice.percent(70) && (s[spot] == b' ' || s[spot] == b'\n') {
                s[spot]
            } else {
                dice.pick(b" \n")
            };
            s.insert(spot, b);
        }
        4 => {
            let (a, b) = any_number;
            let digits = b - a;
            let fill = if digits < 17 { 17 - digits } else { 1 };
            for _ in 0..fill {
                s.insert(a, b'0');
            }
        }
        5 => {
            let letter = |s: &[u8], w: &(usize, usize)| (w.0..w.1).find(|&k| s[k].is_ascii_lowercase());
            let with: Vec<usize> = numbers.iter().filter_map(|w| letter(s, w)).collect();
            if with.is_empty() {
                s[any_number.0] = b'F';
            } else {
                let k = with[dice.index(with.len())];
                s[k] = s[k].to_ascii_uppercase();
            }
        }
        6 => {
            s.pop();
        }
        7 => {
            let more: &[u8] = match dice.below(6) {
                0 => b"\n",
                1 => b" ",
                2 => b"3ff\n",
                3 => b"\r",
                4 => b"gates 0\n",
                _ => b"\0",
            };
            s.extend_from_slice(more);
        }
        8 => {
            // the second word of a keyword's line, one up or down
            let key = all.iter().position(|w| s[w.0] > b'f' || &s[w.0..w.1] == b"beats");
            let Some(&(a, b)) = key.and_then(|k| all.get(k + 1)) else { return };
            let Some(v) = std::str::from_utf8(&s[a..b]).ok().and_then(|t| u64::from_str_radix(t, 16).ok())
            else {
                return;
            };
            let v = match dice.below(5) {
                0 | 1 if v > 0 => v - 1,
                2 => v + dice.range(1, 300),
                3 => 0xffff,
                _ => v + 1,
            };
            s.splice(a..b, format!("{v:x}").into_bytes());
        }
        9 => {
            let (a, b) = word;
            s.drain(a..(b + 1).min(s.len()));
        }
        10 => {
            let (a, b) = any_number;
            let text = dice.pick(&["10000", "100000000", "ffffffffffffffff", "100"]);
            s.splice(a..b, text.bytes());
        }
        _ => {
            let gaps: Vec<usize> = (from..to).filter(|&k| s[k] == b' ' || s[k] == b'\n').collect();
            if gaps.is_empty() {
                return;
            }
            let k = gaps[dice.index(gaps.len())];
            s[k] = if s[k] == b' ' { b'\n' } else { b' ' };
        }
    }
}

/// Damage of a random kind anywhere; gives the kind.
pub fn damage(dice: &mut Dice, s: &mut Vec<u8>) -> usize {
    let kind = dice.pick(&[1, 1, 1, 2, 2, 2, 3, 3, 4, 5, 6, 7, 8, 8, 9, 10, 11]);
    let (from, to) = if dice.percent(60) {
        let all = sections(s);
        if all.is_empty() {
            (0, s.len())
        } else {
            all[dice.index(all.len())]
        }
    } else {
        (0, s.len())
    };
    damage_in(dice, s, kind, from, to);
    kind
}

/// One fresh script for a batch; gives the kind of damage too.
pub fn fresh(dice: &mut Dice) -> (Vec<u8>, usize) {
    let (most, longest) = match dice.below(40) {
        0 => (2000, 255),
        1..=4 => (500, 40),
        _ => (160, 8),
    };
    let zeros = if dice.percent(20) { Zeros::Some(dice.pick(&[5, 30])) } else { Zeros::None };
    let mut s = random(dice, most, longest).bytes(zeros, dice);
    let mut kind = 0;
    if dice.percent(25) {
        kind = damage(dice, &mut s);
        if dice.percent(10) {
            damage(dice, &mut s);
        }
    }
    (s, kind)
}

// ---- the directed scripts ----

pub const WRITE_EXAMPLE: &str = "bridge 8 4 0\nwrites 1\n5 1002 0 3 1 0 0 2\nbeats 1\n\
1122334455667788 fc\nreads 0\nwcodes 2\n3\n2\nrparts 0\ngates 9\n\
3ff\n3ff\n3ff\n3ff\n3ff\n3ff\n3ff\n3ff\n3ff\n";

pub const READ_EXAMPLE: &str = "bridge 8 4 0\nwrites 0\nbeats 0\nreads 1\n7 1004 1 3 1 0 0 0\n\
wcodes 0\nrparts 3\ncafe 0\nbeef 1\n12345678 2\ngates b\n\
3ff\n3ff\n3ff\n3ff\n3ff\n3ff\n3ff\n3ff\n3ff\n3ff\n3ff\n";

const EMPTY_SECTIONS: &str = "bridge 8 4 0\nwrites 0\nbeats 0\nreads 0\nwcodes 0\nrparts 0\ngates 0\n";

/// A few short bursts both ways that fill every table when a channel is held.
fn workload(dice: &mut Dice, bridge: [u64; 3], writes: usize, reads: usize) -> Draft {
    let mut d = Draft { bridge, ..Draft::default() };
    let small = |dice: &mut Dice| {
        let mut f = burst_with(dice, &bridge, 0).expect("verdict 0 can always be had");
        f[2] = f[2].min(1);
        f
    };
    for _ in 0..writes {
        d.writes.push(small(dice));
    }
    for _ in 0..reads {
        d.reads.push(small(dice));
    }
    d.supply(dice);
    d
}

fn plain(d: &Draft, dice: &mut Dice) -> (Vec<u8>, usize) {
    (d.bytes(Zeros::None, dice), 0)
}

/// Directed scripts with their kinds of damage, in a fixed order.
pub fn directed(dice: &mut Dice) -> Vec<(Vec<u8>, usize)> {
    let mut all: Vec<(Vec<u8>, usize)> = Vec::new();
    for s in [WRITE_EXAMPLE, READ_EXAMPLE, EMPTY_SECTIONS] {
        all.push((s.into(), 0));
    }

    // every verdict under every plan, both ways
    for pair in PLANS {
        for level in 0..3 {
            let mut d = Draft { bridge: [pair[0], pair[1], level], ..Draft::default() };
            let mut order: Vec<u64> = (0..=10).chain([0, 0]).collect();
            for way in 0..2 {
                dice.shuffle(&mut order);
                for &v in &order {
                    if let Some(f) = burst_with(dice, &d.bridge, v) {
                        if way == 0 { &mut d.writes } else { &mut d.reads }.push(f);
                    }
                }
            }
            d.supply(dice);
            d.gates = vec![[0x3ff]; d.edges()];
            all.push(plain(&d, dice));
        }
    }

    // codes joined in all orders over two parts and over several beats
    for (w, r) in [([2, 3, 0, 1, 3, 2], [2, 3, 3, 2, 0, 3]), ([3, 2, 0, 0, 1, 3], [1, 2, 0, 0, 3, 0])] {
        let mut d = Draft { bridge: [8, 4, 0], ..Draft::default() };
        d.writes = vec![[1, 0x2000, 0, 3, 1, 0, 0, 0], [2, 0x2008, 1, 3, 1, 1, 2, 1]];
        d.reads = vec![[3, 0x2000, 2, 3, 1, 0, 0, 7]];
        d.wcodes = w.iter().map(|&c| [c]).collect();
        d.rparts = r.iter().map(|&c| [dice.below(1 << 32), c]).collect();
        d.supply(dice);
        d.gates = vec![[0x3ff]; d.edges()];
        all.push(plain(&d, dice));
    }

    // the top of the address space
    for pair in PLANS {
        let mut d = Draft { bridge: [pair[0], pair[1], 0], ..Draft::default() };
        let wide = log2(pair[0]);
        let s = 1 << wide;
        let list: Vec<[u64; 8]> = vec![
            [10, (1 << 32) - s, 0, wide, 1, 0, 0, 0],
            [11, (1 << 32) - 1, 0, wide, 1, 0, 0, 1],
            [12, (1 << 32) - 1, 1, wide, 0, 0, 0, 2],
            [13, (1 << 32) - s, 1, wide, 2, 0, 0, 3],
            [14, (1 << 32) - 3 * s + 1, 2, wide, 1, 0, 0, 4],
            [15, (1 << 32) - s, 1, wide, 1, 0, 0, 5],
            [16, (1 << 32) - 1, 0, 0, 1, 0, 0, 6],
            [17, (1 << 32) - s, 3, wide, 2, 0, 0, 7],
            [18, (1 << 32) - 1, 1, 0, 1, 0, 0, 7],
            [19, 0xffff_f000, 0, wide, 1, 0, 0, 0],
        ];
        d.writes = list.clone();
        d.reads = list;
        d.supply(dice);
        d.gates = vec![[0x3ff]; d.edges()];
        all.push(plain(&d, dice));
    }

    // one channel held low until nothing moves, then let go; each way of the widths once
    for channel in 0..10 {
        let level = [0, 0, 1, 2][channel % 4];
        let pair = PLANS[channel % 3];
        let mut d = workload(dice, [pair[0], pair[1], level], 7, 7);
        let (held, free) = (70, d.edges() + 10);
        d.gates = vec![[0x3ff & !(1 << channel)]; held];
        d.gates.extend(vec![[0x3ff]; free]);
        all.push(plain(&d, dice));
    }

    // both channels of an end held by turns
    for low in [0x14, 0x3 ^ 0x3ff, 0x3e0, 0x380, 0x1f] {
        let mut d = workload(dice, [8, 4, 0], 6, 5);
        for k in 0..d.edges() * 2 {
            d.gates.push([if k / 13 % 2 == 0 { 0x3ff & !low } else { 0x3ff }]);
        }
        all.push(plain(&d, dice));
    }

    // answers are taken seldom, so that their tables fill
    for pair in PLANS.iter().chain(&PLANS) {
        let mut d = workload(dice, [pair[0], pair[1], 0], 10, 5);
        let closing = d.edges();
        for _ in 0..200 {
            let taken = (dice.percent(7) as u64) << 2 | (dice.percent(15) as u64) << 4;
            d.gates.push([0x3eb | taken]);
        }
        d.gates.extend(vec![[0x3ff]; closing / 3]);
        all.push(plain(&d, dice));
    }

    // every gate pattern once
    let mut patterns: Vec<u64> = (0..1024).collect();
    dice.shuffle(&mut patterns);
    for (k, share) in patterns.chunks(128).enumerate() {
        let pair = PLANS[k % 3];
        let mut d = workload(dice, [pair[0], pair[1], 0], 5, 5);
        d.gates = share.iter().map(|&g| [g]).collect();
        all.push(plain(&d, dice));
    }

    // settings that give no plan, alone and together
    for bridge in [[2, 4, 0], [8, 2, 0], [0, 0, 0], [0xff, 8, 0], [4, 8, 0], [8, 4, 3], [4, 8, 3], [2, 8, 9], [8, 8, 0xff]] {
        let mut d = workload(dice, [8, 4, 0], 1, 1);
        d.bridge = bridge;
        d.gates = vec![[0x3ff]; 8];
        all.push(plain(&d, dice));
    }

    // every field too large, offered with READY high
    for field in 0..17 {
        let mut d = workload(dice, [4, 4, 0], 3, 3);
        spoil_field(dice, &mut d, field);
        d.gates = vec![[0x3ff]; d.edges()];
        all.push(plain(&d, dice));
    }
    // offered while the bridge is not ready
    for no in 4..=8 {
        let mut d = workload(dice, [4, 4, 0], 6, 6);
        d.gates = vec![[0x3ff]; 3];
        let big = match no {
            4 => {
                // engines stand still without answers of the block
                let last = d.writes.len() - 1;
                d.writes[last][5] = 2;
                d.beats.clear();
                0x001
            }
            5 => {
                d.writes.clear();
                d.beats[4][1] = 0x10;
                0x002
            }
            6 => {
                let last = d.reads.len() - 1;
                d.reads[last][7] = 8;
                d.rparts.clear();
                0x008
            }
            7 => {
                d.wcodes[0][0] = 4;
                0x080
            }
            _ => {
                d.rparts[0][0] = 1 << 32;
                0x200
            }
        };
        d.gates = vec![[big]; 9];
        all.push(plain(&d, dice));
    }
    // several on one edge, the lowest is given
    for low in 4..=7u64 {
        let mut d = workload(dice, [4, 4, 0], 2, 2);
        if low == 4 {
            d.writes[0][0] = 0x1000;
        }
        if low <= 5 {
            d.beats[0][0] = 1 << 32;
        }
        if low <= 6 {
            d.reads[0][4] = 4;
        }
        d.wcodes[0][0] = 4;
        d.rparts[0][1] = 255;
        d.gates = vec![[0], [0], [0x3ff], [0x3ff]];
        all.push(plain(&d, dice));
    }
    // too large and never offered
    for low in [0x001, 0x002, 0x008, 0x080, 0x200] {
        let mut d = workload(dice, [4, 4, 0], 2, 2);
        d.writes[0][3] = if low == 1 { 8 } else { d.writes[0][3] };
        d.beats[0][1] = if low == 2 { 0xff } else { d.beats[0][1] };
        d.reads[0][6] = if low == 8 { 16 } else { d.reads[0][6] };
        d.wcodes[0][0] = if low == 0x80 { 4 } else { 0 };
        d.rparts[0][1] = if low == 0x200 { 4 } else { 0 };
        d.gates = vec![[0x3ff & !low]; 30];
        all.push(plain(&d, dice));
    }

    // reading: every row of the table in every section
    for section in 0..7 {
        for row in 0..11 {
            let mut d = workload(dice, [8, 4, 0], 2, 1);
            d.gates = gates(dice, 12);
            let s = d.bytes(Zeros::None, dice);
            all.push(broken(dice, s, section, row));
        }
    }

    // every kind of damage, anywhere, and wrong counts in every section
    for kind in 1..=11 {
        for _ in 0..4 {
            let mut d = random(dice, 40, 3);
            d.gates.push([0x3af]);
            let mut s = d.bytes(Zeros::None, dice);
            let n = s.len();
            damage_in(dice, &mut s, kind, 0, n);
            all.push((s, kind));
        }
    }
    for section in 1..7 {
        for _ in 0..2 {
            let mut d = workload(dice, [8, 8, 0], 2, 2);
            d.gates = gates(dice, 9);
            let mut s = d.bytes(Zeros::None, dice);
            let (from, to) = sections(&s)[section];
            damage_in(dice, &mut s, 8, from, to);
            all.push((s, 8));
        }
    }

    // long ones
    for k in 0..5u64 {
        all.push(long(dice, k));
    }
    for longest in [40, 90, 255] {
        let s = loop {
            let s = random(dice, 1500, longest).bytes(Zeros::Some(20), dice);
            if (4000..16_000).contains(&s.len()) {
                break s;
            }
        };
        all.push((s, 0));
    }
    for length in [16_384, 16_385] {
        all.push(exact(dice, length));
    }
    all
}

/// One damage in one section that gives one row of the table in "Reading".
fn broken(dice: &mut Dice, mut s: Vec<u8>, section: usize, row: usize) -> (Vec<u8>, usize) {
    let (from, to) = sections(&s)[section];
    let all = words(&s, from, to);
    let numbers = &all[1..];
    let (a, b) = numbers[dice.index(numbers.len())];
    let ends: Vec<usize> = (from..to).filter(|&k| s[k] == b'\n').collect();
    let spaces: Vec<usize> = (from..to).filter(|&k| s[k] == b' ').collect();
    let line_end = ends[dice.index(ends.len())];
    let space = spaces[dice.index(spaces.len())];
    match row {
        0 => {
            // the script ends where a word is due
            s.truncate(if dice.percent(50) { from } else { a });
            (s, 1)
        }
        1 => {
            s.insert(if dice.percent(50) { from } else { a }, b' ');
            (s, 3)
        }
        2 => {
            s.insert(if dice.percent(50) { from } else { a }, b'\n');
            (s, 3)
        }
        3 => {
            // another keyword: one byte more, less, or other
            match dice.below(4) {
                0 => s.insert(all[0].1, b's'),
                1 => {
                    s.remove(all[0].1 - 1);
                }
                2 => s[from] = s[from].to_ascii_uppercase(),
                _ => s[from] = b'0',
            }
            (s, 2)
        }
        4 => {
            let old = s[a];
            s[a] = dice.pick(b"gGAFx-\t\r+\0");
            let kind = if s[a].to_ascii_lowercase() == old { 5 } else { 2 };
            (s, kind)
        }
        5 => {
            damage_in(dice, &mut s, 4, a, b);
            (s, 4)
        }
        6 => {
            // one above the carrier of the column
            let bits = carrier(&s, from, a, section);
            if bits == 64 {
                // no 16 digits are above it: take the column behind
                let next = words(&s, b, to)[0];
                s.splice(next.0..next.1, *b"100");
            } else {
                s.splice(a..b, format!("{:x}", 1u64 << bits).into_bytes());
            }
            (s, 10)
        }
        7 => {
            // the script ends where a separator is due
            s.truncate(if dice.percent(50) { space } else { line_end });
            (s, 1)
        }
        8 => {
            s[space] = b'\n';
            (s, 11)
        }
        9 => {
            if dice.percent(50) {
                s.insert(line_end, b' ');
                (s, 3)
            } else if line_end + 1 < s.len() {
                s[line_end] = b' ';
                (s, 11)
            } else {
                s.insert(line_end, b' ');
                (s, 3)
            }
        }
        _ => {
            let more: &[u8] = [&b"\n"[..], b" ", b"0", b"3ff\n", b"\0", b"gates 0\n", b"\xff"][section];
            s.extend_from_slice(more);
            (s, 7)
        }
    }
}

/// Bits of the number that begins at `at` in a section.
fn carrier(s: &[u8], from: usize, at: usize, section: usize) -> u32 {
    let line = s[..at].iter().rposition(|&b| b == b'\n').map_or(0, |k| k + 1);
    let column = s[line..at].iter().filter(|&&b| b == b' ').count();
    if section == 0 {
        return 8;
    }
    if line == from {
        return 16;
    }
    match (section, column) {
        (1 | 3, 0) => 16,
        (1 | 3, 1) => 32,
        (2 | 5, 0) => 64,
        (6, _) => 10,
        _ => 8,
    }
}

/// Pages and other long bursts.
fn long(dice: &mut Dice, k: u64) -> (Vec<u8>, usize) {
    let mut d = Draft { bridge: [8, 4, 0], ..Draft::default() };
    match k {
        0 => {
            d.writes = vec![[1, 0x3000, 63, 2, 1, 0, 0, 2]];
            d.reads = vec![[2, 0x3100, 63, 2, 1, 0, 0, 2]];
        }
        1 => {
            // 256 beats of one byte
            d.bridge = [4, 4, 0];
            d.writes = vec![[4095, 0x4f00, 255, 0, 1, 1, 15, 7]];
            d.reads = vec![[0, 0xffff_ff00, 255, 0, 1, 0, 0, 0]];
        }
        2 => {
            // 256 refused beats
            d.bridge = [8, 8, 1];
            d.writes = vec![[9, 0, 255, 7, 0, 0, 0, 0], [8, 0, 0, 3, 1, 0, 0, 0]];
            d.reads = vec![[9, 0, 255, 3, 3, 0, 0, 0], [8, 0, 0, 3, 1, 0, 0, 0]];
        }
        3 => {
            d.writes = vec![[1, 0x5000, 15, 3, 2, 0, 0, 1], [2, 0x5003, 15, 3, 0, 0, 0, 1]];
            d.reads = vec![[1, 0x5078, 15, 3, 2, 0, 0, 1], [2, 0x5003, 15, 3, 0, 0, 0, 1]];
        }
        _ => {
            d.bridge = [8, 8, 0];
            d.writes = vec![[1, 0x6801, 127, 3, 1, 0, 0, 1]];
            d.reads = vec![[1, 0x6c00, 127, 3, 1, 0, 0, 1]];
        }
    }
    if k == 1 || k == 2 {
        // short lines, so that 256 beats stay below the limit
        d.beats = (0..256).map(|j| [j, 1 << (j % 4)]).collect();
        d.wcodes = (0..256).map(|j| [(j == 77) as u64 * 3]).collect();
    }
    d.supply(dice);
    if k == 1 {
        for (j, p) in d.rparts.iter_mut().enumerate() {
            p[0] = j as u64;
        }
    }
    let room = 16_384 - d.bytes(Zeros::None, dice).len() - 3;
    let edges = (d.edges() * if k == 1 { 1 } else { 2 }).min(room / 4);
    d.gates = vec![[0x3ff]; edges];
    if k != 1 {
        for g in &mut d.gates {
            if dice.percent(40) {
                g[0] = dice.next() & 0x3ff | dice.next() & 0x3ff;
            }
        }
    }
    plain(&d, dice)
}

/// A sound script that has exactly so many bytes (below the limit) or would be sound (above it).
fn exact(dice: &mut Dice, length: usize) -> (Vec<u8>, usize) {
    let mut d = workload(dice, [8, 4, 0], 12, 12);
    while d.bytes(Zeros::None, dice).len() + 13 < length {
        let g = dice.next() & 0x3ff | dice.next() & 0x3ff;
        d.gates.push([g.max(0x100)]);
    }
    let mut s = d.bytes(Zeros::None, dice);
    // the rest, at most 13 bytes, in leading zeros of the last gate
    let at = s[..s.len() - 1].iter().rposition(|&b| b == b'\n').map_or(0, |k| k + 1);
    while s.len() < length {
        s.insert(at, b'0');
    }
    (s, 0)
}

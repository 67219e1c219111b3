//! Traffic for a measurement: page writes and page reads at once (64 beats of 4 bytes, U 8, L 4,
//! level 0), with all wires ready or under an irregular stall pattern.

use std::hint::black_box;
use std::time::{Duration, Instant};

use crate::bridge::{chan, Bridge, Inputs, ReadPart, Slots};
use crate::rules::{Burst, Data, Plan, INCR};

#[derive(Clone, Copy, Debug)]
pub struct Report {
    pub edges: u64,
    pub time: Duration,
    /// mixes all payloads shown and the counts of what crossed above, so that two runs can be compared
    pub sum: u64,
}

impl Report {
    pub fn rate(&self) -> f64 {
        self.edges as f64 / self.time.as_secs_f64()
    }
}

pub fn page(number: u32, id: u16) -> Burst {
    let addr = 0x1000u32.wrapping_add(number.wrapping_mul(256));
    Burst { addr, id, len: 63, size: 2, kind: INCR, lock: 0, cache: 0, prot: 2 }
}

/// The gate of the next edge: one of 16 bits of a shift register that is always moving.
#[inline]
fn irregular(state: &mut u32) -> u16 {
    *state ^= *state << 13;
    *state ^= *state >> 17;
    *state ^= *state << 5;
    // each wire is high on 3 of 4 edges
    ((*state | *state >> 16) & 0x3ff) as u16
}

pub fn bench(edges: u64, stalls: bool) -> Report {
    // unknown to the compiler, so that it makes no bridge for one plan alone
    let plan = black_box(Plan::new(8, 4, 0).expect("a legal plan"));
    let mut bridge = Bridge::new(plan, Slots::all(4));
    let mut noise = 0x2545_f491u32;
    let (mut writes, mut reads, mut beats) = (0u32, 0u32, 0u64);
    let mut sum = 0u64;
    let start = Instant::now();
    for e in 0..edges {
        let gate = if stalls { irregular(&mut noise) } else { 0x3ff };
        let high = |c: u16| gate & c != 0;
        let x = Inputs {
            aresetn: true,
            aw: high(chan::AW).then(|| page(writes, (writes & 0xfff) as u16)),
            w: high(chan::W).then(|| Data {
                data: beats.wrapping_mul(0x9e37_79b9_7f4a_7c15),
                strb: if beats & 1 == 0 { 0x0f } else { 0xf0 },
            }),
            bready: high(chan::B),
            ar: high(chan::AR).then(|| page(reads, (reads & 0xfff) as u16)),
            rready: high(chan::R),
            lawready: high(chan::LAW),
            lwready: high(chan::LW),
            lb: high(chan::LB).then_some(0),
            larready: high(chan::LAR),
            lr: high(chan::LR).then_some(ReadPart { data: e & 0xffff_ffff, code: 0 }),
        };
        let shown = bridge.wires();
        let Ok(out) = bridge.edge(&x) else { unreachable!("no field is too large") };
        let c = out.crossed;
        writes += (c & chan::AW != 0) as u32;
        reads += (c & chan::AR != 0) as u32;
        beats += (c & chan::W != 0) as u64;
        let word = shown.rdata
            ^ shown.lwdata
            ^ (shown.lawaddr as u64) << 16
            ^ (shown.laraddr as u64) << 24
            ^ (shown.bresp as u64) << 60;
        sum = sum.rotate_left(5) ^ word;
    }
    sum ^= beats ^ (writes as u64) << 24 ^ (reads as u64) << 44;
    Report { edges, time: start.elapsed(), sum }
}

//! Edges a second of the proved bridge and of the model under the same traffic, and the bytes that a bridge takes in each.
//!
//! `bench [EDGES [ROUNDS]]`. Both are run by turns, and the best run of each counts, since others use the machine too. Their sums over
//! the payloads shown and the counts of what crosses must be equal, else the exit status is 1.

use std::mem::size_of;
use std::process::ExitCode;
use std::time::Instant;

use model::bench::bench as model_traffic;
use model::bridge::{Bridge, ReadBeat, Waiting, WriteAnswer};
use model::rules::Data;

extern "C" {
    /// Exported by crates/traffic.
    fn traffic_sum(upper: u8, lower: u8, level: u8, edges: u64, stalls: bool) -> u64;
    fn traffic_bridge_bytes() -> usize;
    fn traffic_table_bytes() -> usize;
}

const SLOTS: usize = 4;

/// Edges a second of one run, and the sum over it.
struct Run {
    rate: f64,
    sum: u64,
}

fn proved(edges: u64, stalls: bool) -> Run {
    let start = Instant::now();
    // SAFETY: it takes two numbers and touches no memory of ours.
    let sum = unsafe { traffic_sum(8, 4, 0, edges, stalls) };
    Run { rate: edges as f64 / start.elapsed().as_secs_f64(), sum }
}

fn model(edges: u64, stalls: bool) -> Run {
    let report = model_traffic(edges, stalls);
    Run { rate: report.rate(), sum: report.sum }
}

/// The bytes of the model's slots.
fn model_tables() -> usize {
    SLOTS
        * (2 * size_of::<Waiting>() + size_of::<Data>() + size_of::<WriteAnswer>() + size_of::<ReadBeat>())
}

/// Best rates of both by turns, or nothing if a sum differs.
fn race(rounds: u32, edges: u64, stalls: bool) -> Option<(f64, f64)> {
    let (mut best_proved, mut best_model) = (0f64, 0f64);
    for _ in 0..rounds {
        let (p, m) = (proved(edges, stalls), model(edges, stalls));
        if p.sum != m.sum {
            println!("sums differ: proved {:016x}, model {:016x}", p.sum, m.sum);
            return None;
        }
        best_proved = best_proved.max(p.rate);
        best_model = best_model.max(m.rate);
    }
    Some((best_proved, best_model))
}

fn main() -> ExitCode {
    let mut numbers = std::env::args().skip(1).map(|a| a.parse().expect("a number"));
    let edges = numbers.next().unwrap_or(1_000_000);
    let rounds = numbers.next().unwrap_or(60) as u32;
    println!("| traffic | proved, edges/s | model, edges/s | proved / model |");
    println!("|---|---|---|---|");
    for (name, stalls) in [("all wires ready", false), ("irregular stalls", true)] {
        let Some((p, m)) = race(rounds, edges, stalls) else { return ExitCode::from(1) };
        println!("| {name} | {p:.0} | {m:.0} | {:.2} |", p / m);
    }
    // SAFETY: both take nothing.
    let (bridge, tables) = unsafe { (traffic_bridge_bytes(), traffic_table_bytes()) };
    println!("\n| bytes | proved | model |");
    println!("|---|---|---|");
    println!("| bridge | {bridge} | {} |", size_of::<Bridge>());
    println!("| tables of {SLOTS} slots | {tables} | {} |", model_tables());
    ExitCode::SUCCESS
}

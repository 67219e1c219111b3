//! SCRIPTS.md, "Playing" to "Faults": a script through a bridge to a transcript.

use crate::bridge::{chan, Bridge, Inputs, Outcome, Slots, Wires};
use crate::reader::{line_of, read, Fault, Script};
use crate::rules::{Plan, Refusal};

/// Somebody who looks on while a script is played. The player does not depend on it.
pub trait Watch {
    fn unread(&mut self, _fault: &Fault) {}
    fn no_plan(&mut self, _no: Refusal) {}
    fn begins(&mut self, _script: &Script, _plan: &Plan) {}
    fn before(&mut self, _bridge: &Bridge, _gate: u16, _x: &Inputs, _shown: &Wires) {}
    fn after(&mut self, _bridge: &Bridge, _result: &Result<Outcome, Refusal>) {}
}

pub struct Nobody;
impl Watch for Nobody {}

#[derive(Clone, PartialEq, Eq, Debug)]
pub struct Played {
    pub transcript: Vec<u8>,
    /// played to the end
    pub sound: bool,
}

pub fn play(script: &[u8]) -> Vec<u8> {
    play_seen(script, &mut Nobody).transcript
}

struct Page(Vec<u8>);

impl Page {
    fn hex(&mut self, v: u64) {
        let digits = (67 - (v | 1).leading_zeros()) / 4;
        for k in (0..digits).rev() {
            self.0.push(b"0123456789abcdef"[(v >> (4 * k) & 15) as usize]);
        }
    }

    fn line(&mut self, edge: usize, channel: &str, fields: &[u64]) {
        self.hex(edge as u64);
        self.0.push(b' ');
        self.0.extend_from_slice(channel.as_bytes());
        for &f in fields {
            self.0.push(b' ');
            self.hex(f);
        }
        self.0.push(b'\n');
    }

    fn fault(mut self, script: &[u8], layer: &str, number: u8, place: usize) -> Played {
        let line = line_of(script, place);
        self.0.extend_from_slice(format!("fault {layer} {number} {line} {place}\n").as_bytes());
        Played { transcript: self.0, sound: false }
    }
}

pub fn play_seen<W: Watch>(text: &[u8], watch: &mut W) -> Played {
    let mut page = Page(Vec::new());
    let script = match read(text) {
        Ok(s) => s,
        Err(f) => {
            watch.unread(&f);
            let number = f.row.number();
            let layer = if number >= 23 { "sections" } else { "words" };
            return page.fault(text, layer, number, f.place);
        }
    };
    let plan = match Plan::new(script.upper, script.lower, script.level) {
        Ok(p) => p,
        Err(no) => {
            watch.no_plan(no);
            return page.fault(text, "bridge", no.number(), 0);
        }
    };
    watch.begins(&script, &plan);
    let mut bridge = Bridge::new(plan, Slots::all(4));
    let (mut aw, mut w, mut ar, mut lb, mut lr) = (0, 0, 0, 0, 0);
    for (edge, gate) in script.gates.iter().enumerate() {
        let high = |channel: u16| gate.bits & channel != 0;
        let x = Inputs {
            aresetn: true,
            aw: script.writes.get(aw).copied().filter(|_| high(chan::AW)),
            w: script.beats.get(w).copied().filter(|_| high(chan::W)),
            bready: high(chan::B),
            ar: script.reads.get(ar).copied().filter(|_| high(chan::AR)),
            rready: high(chan::R),
            lawready: high(chan::LAW),
            lwready: high(chan::LW),
            lb: script.wcodes.get(lb).copied().filter(|_| high(chan::LB)),
            larready: high(chan::LAR),
            lr: script.rparts.get(lr).copied().filter(|_| high(chan::LR)),
        };
        let shown = bridge.wires();
        watch.before(&bridge, gate.bits, &x, &shown);
        let result = bridge.edge(&x);
        watch.after(&bridge, &result);
        let out = match result {
            Ok(out) => out,
            Err(no) => return page.fault(text, "bridge", no.number(), gate.place as usize),
        };
        if out.crossed == 0 {
            continue;
        }
        if let (Some(judged), Some(b)) = (out.write, x.aw) {
            page.line(edge, "AW", &[b.id as u64, judged.verdict as u64]);
            aw += 1;
        }
        if let (true, Some(d)) = (out.crossed & chan::W != 0, x.w) {
            page.line(edge, "W", &[d.data, d.strb as u64]);
            w += 1;
        }
        if out.crossed & chan::B != 0 {
            page.line(edge, "B", &[shown.bid as u64, shown.bresp as u64]);
        }
        if let (Some(judged), Some(b)) = (out.read, x.ar) {
            page.line(edge, "AR", &[b.id as u64, judged.verdict as u64]);
            ar += 1;
        }
        if out.crossed & chan::R != 0 {
            let (id, code) = (shown.rid as u64, shown.rresp as u64);
            page.line(edge, "R", &[id, shown.rdata, code, shown.rlast as u64]);
        }
        if out.crossed & chan::LAW != 0 {
            page.line(edge, "LAW", &[shown.lawaddr as u64, shown.lawprot as u64]);
        }
        if out.crossed & chan::LW != 0 {
            page.line(edge, "LW", &[shown.lwdata, shown.lwstrb as u64]);
        }
        if let (true, Some(code)) = (out.crossed & chan::LB != 0, x.lb) {
            page.line(edge, "LB", &[code as u64]);
            lb += 1;
        }
        if out.crossed & chan::LAR != 0 {
            page.line(edge, "LAR", &[shown.laraddr as u64, shown.larprot as u64]);
        }
        if let (true, Some(p)) = (out.crossed & chan::LR != 0, x.lr) {
            page.line(edge, "LR", &[p.data, p.code as u64]);
            lr += 1;
        }
    }
    let (writes, reads) = bridge.owed();
    page.0.extend_from_slice(b"owed ");
    page.hex(writes as u64);
    page.0.push(b' ');
    page.hex(reads as u64);
    page.0.push(b'\n');
    Played { transcript: page.0, sound: true }
}

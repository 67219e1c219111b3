//! PROMISE.md over random runs: ledgers kept from outside, what is due recomputed after each call.

use model::bridge::*;
use model::dice::Dice;
use model::rules::*;

#[derive(Clone, Default, Debug)]
struct Ledgers {
    aw: Vec<(Burst, Verdict)>,
    w: Vec<Data>,
    b: Vec<(u16, u8)>,
    ar: Vec<(Burst, Verdict)>,
    r: Vec<(u16, u64, u8, bool)>,
    law: Vec<(u64, u8)>,
    lw: Vec<Data>,
    lb: Vec<u8>,
    lar: Vec<(u64, u8)>,
    lr: Vec<(u64, u8)>,
}

#[derive(Default)]
struct Due {
    law: Vec<(u64, u8)>,
    lw: Vec<Data>,
    lar: Vec<(u64, u8)>,
    b: Vec<(u16, u8)>,
    r: Vec<(u16, u64, u8, bool)>,
}

/// Parts by the text of RULES.md, not by the library.
fn parts(u: u64, l: u64, s: u64, a: u64) -> Vec<(u64, u64)> {
    let mut all = vec![a];
    if s > l {
        all.extend((a + 1..a - a % s + s).filter(|m| m % l == 0));
    }
    all.into_iter().map(|p| (p, p % u - p % l)).collect()
}

fn first_error(codes: &[u8]) -> u8 {
    codes.iter().copied().find(|&c| c >= 2).unwrap_or(0)
}

fn due(plan: &Plan, g: &Ledgers) -> Due {
    let (u, l) = (plan.upper() as u64, plan.lower() as u64);
    let mask = if l == 8 { u64::MAX } else { 0xffff_ffff };
    let mut d = Due::default();
    let mut beats = g.w.iter();
    let mut answers = g.lb.iter().copied();
    let mut answering = true;
    for (burst, verdict) in &g.aw {
        let mut complete = true;
        let mut codes = Vec::new();
        for i in 0..burst.beats() {
            let Some(beat) = beats.next() else {
                complete = false;
                break;
            };
            if *verdict != Verdict::Forwarded {
                continue;
            }
            for (p, f) in parts(u, l, 1 << burst.size, burst.address(i)) {
                d.law.push((p, burst.prot));
                let data = (beat.data >> (8 * f)) & mask;
                d.lw.push(Data { data, strb: (beat.strb >> f) & ((1u16 << l) - 1) as u8 });
                match answers.next() {
                    Some(c) => codes.push(c),
                    None => complete = false,
                }
            }
        }
        answering &= complete;
        if answering {
            let code = if *verdict == Verdict::Forwarded { first_error(&codes) } else { SLVERR };
            d.b.push((burst.id, code));
        }
    }
    let mut answers = g.lr.iter().copied();
    let mut answering = true;
    for (burst, verdict) in &g.ar {
        for i in 0..burst.beats() {
            let last = i + 1 == burst.beats();
            let (mut data, mut codes) = (0u64, Vec::new());
            if *verdict == Verdict::Forwarded {
                for (p, f) in parts(u, l, 1 << burst.size, burst.address(i)) {
                    d.lar.push((p, burst.prot));
                    match answers.next() {
                        Some((x, c)) => {
                            data |= x << (8 * f);
                            codes.push(c);
                        }
                        None => answering = false,
                    }
                }
            } else {
                codes.push(SLVERR);
            }
            if answering {
                d.r.push((burst.id, data, first_error(&codes), last));
            }
        }
    }
    d
}

fn beginning<T: PartialEq + std::fmt::Debug>(name: &str, list: &[T], of: &[T]) {
    assert!(of.starts_with(list), "{name}: {list:?} of {of:?}");
}

fn random_burst(dice: &mut Dice, wide: u64) -> Burst {
    let kind = dice.pick(&[0, 1, 1, 2, 2, 3]);
    let size = dice.range(0, wide) as u8;
    let base = dice.pick(&[0x1000, 0xffff_ffe0, 0xfe0, 0]);
    let mut addr = base + dice.below(32) as u32;
    if dice.percent(60) {
        addr &= !((1 << size) - 1);
    }
    Burst {
        addr,
        id: dice.below(4096) as u16,
        len: dice.pick(&[0, 0, 1, 1, 2, 3, 7, 16]),
        size,
        kind,
        lock: dice.percent(10) as u8,
        cache: if dice.percent(10) { 3 } else { 0 },
        prot: dice.below(8) as u8,
    }
}

/// Wires of a channel on which the bridge drives VALID, as one comparable row.
fn driven(o: &Wires) -> [(bool, [u64; 4]); 5] {
    [
        (o.bvalid, [o.bid as u64, o.bresp as u64, 0, 0]),
        (o.rvalid, [o.rid as u64, o.rdata, o.rresp as u64, o.rlast as u64]),
        (o.lawvalid, [o.lawaddr as u64, o.lawprot as u64, 0, 0]),
        (o.lwvalid, [o.lwdata, o.lwstrb as u64, 0, 0]),
        (o.larvalid, [o.laraddr as u64, o.larprot as u64, 0, 0]),
    ]
}

#[test]
fn promise() {
    let mut dice = Dice::new(2024);
    let mut answered = (0, 0);
    for _ in 0..500 {
        let (u, l) = dice.pick(&[(4u8, 4u8), (8, 4), (8, 8)]);
        let plan = Plan::new(u, l, dice.pick(&[0, 0, 1, 2])).unwrap();
        let slot = |dice: &mut Dice| dice.pick(&[0, 1, 1, 2, 2, 3, 4, 4, 7]);
        let slots = Slots {
            write_bursts: slot(&mut dice),
            data_beats: slot(&mut dice),
            write_answers: slot(&mut dice),
            read_bursts: slot(&mut dice),
            read_beats: slot(&mut dice),
        };
        let mut bridge = Bridge::new(plan, slots);
        let mut g = Ledgers::default();
        let share: Vec<u64> = (0..10).map(|_| dice.pick(&[15, 40, 70, 90, 100])).collect();
        let wide = u.trailing_zeros() as u64;
        for _ in 0..150 {
            let on = |dice: &mut Dice, k: usize| dice.percent(share[k]);
            let mut x = Inputs {
                aresetn: !dice.percent(1),
                aw: on(&mut dice, 0).then(|| random_burst(&mut dice, wide)),
                w: on(&mut dice, 1).then(|| Data {
                    data: if u == 4 { dice.below(1 << 32) } else { dice.next() },
                    strb: dice.next() as u8 & if u == 4 { 15 } else { 255 },
                }),
                bready: on(&mut dice, 2),
                ar: on(&mut dice, 3).then(|| random_burst(&mut dice, wide)),
                rready: on(&mut dice, 4),
                lawready: on(&mut dice, 5),
                lwready: on(&mut dice, 6),
                lb: on(&mut dice, 7).then(|| dice.below(4) as u8),
                larready: on(&mut dice, 8),
                lr: on(&mut dice, 9).then(|| ReadPart {
                    data: if l == 4 { dice.below(1 << 32) } else { dice.next() },
                    code: dice.below(4) as u8,
                }),
            };
            if dice.percent(3) {
                x.lb = Some(4 + dice.below(250) as u8);
            }
            let before = g.clone();
            let o = bridge.wires();
            let result = bridge.edge(&x);
            let now = bridge.wires();
            let mut crossed = 0;
            if !x.aresetn {
                assert_eq!(result, Ok(Outcome::default()));
                g = Ledgers::default();
            } else if result.is_ok() {
                let judge = |b: &Burst| (*b, plan.judge(b).verdict);
                if let (Some(b), true) = (&x.aw, o.awready) {
                    g.aw.push(judge(b));
                    crossed |= chan::AW;
                }
                if let (Some(d), true) = (x.w, o.wready) {
                    g.w.push(d);
                    crossed |= chan::W;
                }
                if x.bready && o.bvalid {
                    g.b.push((o.bid, o.bresp));
                    crossed |= chan::B;
                }
                if let (Some(b), true) = (&x.ar, o.arready) {
                    g.ar.push(judge(b));
                    crossed |= chan::AR;
                }
                if x.rready && o.rvalid {
                    g.r.push((o.rid, o.rdata, o.rresp, o.rlast));
                    crossed |= chan::R;
                }
                if x.lawready && o.lawvalid {
                    g.law.push((o.lawaddr as u64, o.lawprot));
                    crossed |= chan::LAW;
                }
                if x.lwready && o.lwvalid {
                    g.lw.push(Data { data: o.lwdata, strb: o.lwstrb });
                    crossed |= chan::LW;
                }
                if let (Some(c), true) = (x.lb, o.lbready) {
                    g.lb.push(c);
                    crossed |= chan::LB;
                }
                if x.larready && o.larvalid {
                    g.lar.push((o.laraddr as u64, o.larprot));
                    crossed |= chan::LAR;
                }
                if let (Some(p), true) = (x.lr, o.lrready) {
                    g.lr.push((p.data, p.code));
                    crossed |= chan::LR;
                }
                assert_eq!(result.unwrap().crossed, crossed);
                assert_eq!(result.unwrap().write.is_some(), crossed & chan::AW != 0);
                assert_eq!(result.unwrap().read.is_some(), crossed & chan::AR != 0);
            } else {
                assert_eq!(now, o);
            }
            let due_now = due(&plan, &g);
            beginning("law-due", &g.law, &due_now.law);
            beginning("lw-due", &g.lw, &due_now.lw);
            beginning("lar-due", &g.lar, &due_now.lar);
            assert!(g.lb.len() <= before.law.len() && g.lb.len() <= before.lw.len());
            assert!(g.lr.len() <= before.lar.len());
            let due_before = due(&plan, &before);
            beginning("b-due", &g.b, &due_before.b);
            beginning("r-due", &g.r, &due_before.r);
            let (writes, reads) = bridge.owed();
            assert_eq!(g.aw.len(), g.b.len() + writes);
            assert_eq!(g.ar.len(), g.r.iter().filter(|r| r.3).count() + reads);
            if x.aresetn {
                let bits = [chan::B, chan::R, chan::LAW, chan::LW, chan::LAR];
                for ((was, is), bit) in driven(&o).iter().zip(driven(&now)).zip(bits) {
                    if was.0 && crossed & bit == 0 {
                        assert_eq!(*was, is);
                    }
                }
            }
            for (valid, payload) in driven(&now) {
                assert!(valid || payload == [0; 4]);
            }
        }
        answered.0 += g.b.len();
        answered.1 += g.r.len();
    }
    assert!(answered.0 > 300 && answered.1 > 300, "{answered:?}");
}

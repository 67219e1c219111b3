//! The cycle table of MACHINE.md, resets, tables without slots, refused edges, numbers of edges.

use model::bridge::*;
use model::dice::Dice;
use model::rules::*;

fn plan() -> Plan {
    Plan::new(8, 4, 0).unwrap()
}

/// All READY of master and block high, nothing offered.
const OPEN: Inputs =
    Inputs { bready: true, rready: true, lawready: true, lwready: true, larready: true, ..Inputs::QUIET };

const AW: Burst = Burst { addr: 0x1002, id: 5, len: 0, size: 3, kind: INCR, lock: 0, cache: 0, prot: 2 };
const W: Data = Data { data: 0x1122334455667788, strb: 0xfc };

/// Plays the example and gives (wires before, outcome, writes owed after) of each edge.
fn example(slots: Slots) -> Vec<(Wires, Outcome, usize)> {
    let mut b = Bridge::new(plan(), slots);
    let (mut aw, mut w, mut codes) = (Some(AW), Some(W), vec![2, 3]);
    let mut all = Vec::new();
    for _ in 0..9 {
        let shown = b.wires();
        let out = b.edge(&Inputs { aw, w, lb: codes.last().copied(), ..OPEN }).unwrap();
        if out.crossed & chan::AW != 0 {
            aw = None;
        }
        if out.crossed & chan::W != 0 {
            w = None;
        }
        if out.crossed & chan::LB != 0 {
            codes.pop();
        }
        all.push((shown, out, b.owed().0));
    }
    all
}

#[test]
fn cycle_table() {
    let idle = Wires { awready: true, wready: true, arready: true, ..Wires::default() };
    let send = |lawaddr, lwdata, lwstrb| Wires {
        lawvalid: true,
        lawaddr,
        lawprot: 2,
        lwvalid: true,
        lwdata,
        lwstrb,
        ..idle
    };
    let wait = Wires { lbready: true, ..idle };
    let answer = Wires { bvalid: true, bid: 5, bresp: 3, ..idle };
    let expected = [
        (idle, chan::AW | chan::W, 1),
        (idle, 0, 1),
        (idle, 0, 1),
        (send(0x1002, 0x55667788, 0xc), chan::LAW | chan::LW, 1),
        (wait, chan::LB, 1),
        (send(0x1004, 0x11223344, 0xf), chan::LAW | chan::LW, 1),
        (wait, chan::LB, 1),
        (idle, 0, 1),
        (answer, chan::B, 0),
    ];
    for slots in [2, 4, 9] {
        let got = example(Slots::all(slots));
        for (edge, (wires, crossed, owed)) in expected.iter().enumerate() {
            assert_eq!(got[edge].0, *wires, "edge {edge}");
            assert_eq!(got[edge].1.crossed, *crossed, "edge {edge}");
            assert_eq!(got[edge].2, *owed, "edge {edge}");
            let judged = got[edge].1.write.map(|j| (j.verdict.number(), j.protect.number()));
            assert_eq!(judged, (edge == 0).then_some((0, 8)), "edge {edge}");
            assert_eq!(got[edge].1.read, None);
        }
    }
    // "With one slot, AWREADY is low on edge 1, and WREADY on edges 1 and 2."
    let one = example(Slots::all(1));
    for (edge, (wires, crossed, _)) in expected.iter().enumerate() {
        assert_eq!(one[edge].0.awready, edge != 1);
        assert_eq!(one[edge].0.wready, edge != 1 && edge != 2);
        let same = Wires { awready: true, wready: true, ..one[edge].0 };
        assert_eq!((same, one[edge].1.crossed), (*wires, *crossed));
    }
}

#[test]
fn numbers_of_edges() {
    let mut dice = Dice::new(3);
    for k in 0..600 {
        let (u, l) = dice.pick(&[(4, 4), (8, 4), (8, 8)]);
        let plan = Plan::new(u, l, dice.below(3) as u8).unwrap();
        let mut burst = Burst {
            addr: dice.below(1 << 32) as u32,
            id: 77,
            len: dice.below(20) as u8,
            size: dice.below(4) as u8,
            kind: dice.below(4) as u8,
            lock: 0,
            cache: 0,
            prot: 0,
        };
        if k == 0 {
            burst = Burst { addr: 0x1000, len: 63, size: 2, kind: INCR, ..burst };
        }
        let n = burst.beats() as usize;
        let mut p = 0;
        if plan.judge(&burst).verdict == Verdict::Forwarded {
            for i in 0..burst.beats() {
                p += plan.parts(burst.address(i) as u32, burst.bytes()).len();
            }
        }
        let plenty = Inputs {
            w: Some(Data { data: 1, strb: 1 }),
            lb: Some(0),
            lr: Some(ReadPart { data: 1, code: 0 }),
            ..OPEN
        };
        let slots = Slots::all(dice.range(2, 5) as usize);
        let mut b = Bridge::new(plan, slots);
        b.edge(&Inputs { aw: Some(burst), ..plenty }).unwrap();
        let after = (1..).find(|_| b.edge(&plenty).unwrap().crossed & chan::B != 0).unwrap();
        assert_eq!(after, n + 2 * p + 3, "{burst:?}");
        if k == 0 && (u, l) == (8, 4) && plan.level() == 0 {
            assert_eq!(after, 195);
        }
        let mut b = Bridge::new(plan, slots);
        b.edge(&Inputs { ar: Some(burst), ..plenty }).unwrap();
        let after = (1..)
            .find(|_| {
                let last = b.wires().rlast;
                b.edge(&plenty).unwrap().crossed & chan::R != 0 && last
            })
            .unwrap();
        assert_eq!(after, n + 2 * p + 2, "{burst:?}");
        assert_eq!(b.owed(), (0, 0));
    }
}

#[test]
fn page() {
    let mut b = Bridge::new(plan(), Slots::all(4));
    let aw = Burst { addr: 0x3000, id: 1, len: 63, size: 2, kind: INCR, lock: 0, cache: 0, prot: 0 };
    let plenty = Inputs { w: Some(W), lb: Some(0), ..OPEN };
    b.edge(&Inputs { aw: Some(aw), ..plenty }).unwrap();
    let after = (1..).find(|_| b.edge(&plenty).unwrap().crossed & chan::B != 0).unwrap();
    assert_eq!(after, 195);
}

#[test]
fn refused_bursts() {
    let mut b = Bridge::new(plan(), Slots::all(4));
    let bad = Burst { addr: 0, id: 9, len: 2, size: 0, kind: 3, lock: 0, cache: 0, prot: 0 };
    let out = b.edge(&Inputs { aw: Some(bad), ar: Some(bad), ..OPEN }).unwrap();
    assert_eq!(out.write.unwrap().verdict, Verdict::ReservedKind);
    assert_eq!(out.read.unwrap().verdict, Verdict::ReservedKind);
    // all beats of the read, SLVERR, LAST on the last only
    let mut beats = Vec::new();
    for _ in 0..20 {
        let o = b.wires();
        assert!(!o.bvalid && !o.lawvalid && !o.larvalid);
        if b.edge(&OPEN).unwrap().crossed & chan::R != 0 {
            beats.push((o.rid, o.rdata, o.rresp, o.rlast));
        }
    }
    assert_eq!(beats, [(9, 0, 2, false), (9, 0, 2, false), (9, 0, 2, true)]);
    // no answer before all three data beats
    for k in 0..3 {
        assert_eq!(b.owed(), (1, 0));
        b.edge(&Inputs { w: Some(W), ..OPEN }).unwrap();
        if k < 2 {
            for _ in 0..5 {
                assert_eq!(b.edge(&OPEN).unwrap().crossed, 0);
            }
        }
    }
    b.edge(&OPEN).unwrap();
    b.edge(&OPEN).unwrap();
    assert_eq!((b.wires().bvalid, b.wires().bid, b.wires().bresp), (true, 9, 2));
    assert_eq!(b.edge(&OPEN).unwrap().crossed, chan::B);
    assert_eq!(b.owed(), (0, 0));
}

#[test]
fn no_slots() {
    // each table without slots in turn, and all of them
    for which in 0..6 {
        let n = |t| if which == t || which == 5 { 0 } else { 2 };
        let slots = Slots {
            write_bursts: n(0),
            data_beats: n(1),
            write_answers: n(2),
            read_bursts: n(3),
            read_beats: n(4),
        };
        let mut b = Bridge::new(plan(), slots);
        let x = Inputs {
            aw: Some(AW),
            w: Some(W),
            ar: Some(AW),
            lb: Some(0),
            lr: Some(ReadPart::default()),
            ..OPEN
        };
        let mut seen = 0;
        for _ in 0..200 {
            let o = b.wires();
            if n(0) == 0 {
                assert!(!o.awready);
            }
            if n(1) == 0 {
                assert!(!o.wready);
            }
            if n(3) == 0 {
                assert!(!o.arready);
            }
            seen |= b.edge(&x).unwrap().crossed;
        }
        let below_write = chan::LAW | chan::LW | chan::LB;
        let below_read = chan::LAR | chan::LR;
        let all = 0x3ff;
        let expected = match which {
            0 => all & !(chan::AW | chan::B | below_write),
            1 => all & !(chan::W | chan::B | below_write),
            2 => all & !chan::B,
            3 => all & !(chan::AR | chan::R | below_read),
            4 => all & !chan::R,
            _ => 0,
        };
        assert_eq!(seen, expected, "table {which}");
        let owed = b.owed();
        match which {
            0 => assert_eq!(owed.0, 0),
            2 => assert_eq!(owed.0, 3),
            3 => assert_eq!(owed.1, 0),
            4 => assert_eq!(owed.1, 3),
            5 => assert_eq!(owed, (0, 0)),
            _ => (),
        }
    }
}

fn any_inputs(dice: &mut Dice, wrong: bool) -> Inputs {
    let burst = |dice: &mut Dice| Burst {
        addr: dice.next() as u32 & !(dice.below(2) as u32 * 7),
        id: dice.below(4096) as u16,
        len: dice.pick(&[0, 0, 1, 3, 16]),
        size: dice.below(4) as u8,
        kind: dice.below(4) as u8,
        lock: 0,
        cache: 0,
        prot: dice.below(8) as u8,
    };
    let mut x = Inputs {
        aresetn: true,
        aw: dice.percent(50).then(|| burst(dice)),
        w: dice.percent(60).then(|| Data { data: dice.next(), strb: dice.next() as u8 }),
        bready: dice.percent(60),
        ar: dice.percent(50).then(|| burst(dice)),
        rready: dice.percent(60),
        lawready: dice.percent(60),
        lwready: dice.percent(60),
        lb: dice.percent(60).then(|| dice.below(4) as u8),
        larready: dice.percent(60),
        lr: dice.percent(60).then(|| ReadPart { data: dice.below(1 << 32), code: dice.below(4) as u8 }),
    };
    if wrong {
        match dice.below(5) {
            0 => x.aw = Some(Burst { prot: 8, ..burst(dice) }),
            1 => x.ar = Some(Burst { id: 4096, ..burst(dice) }),
            2 => x.lb = Some(4),
            3 => x.lr = Some(ReadPart { data: 1 << 32, code: 0 }),
            _ => x.lr = Some(ReadPart { data: 0, code: 255 }),
        }
    }
    x
}

#[test]
fn refused_edges_change_nothing() {
    let mut dice = Dice::new(11);
    let mut seen = [0; 9];
    for _ in 0..60 {
        let mut b = Bridge::new(plan(), Slots::all(dice.index(5)));
        for _ in 0..300 {
            let before = b.clone();
            let x = any_inputs(&mut dice, true);
            let no = b.edge(&x).unwrap_err();
            seen[no.number() as usize] += 1;
            assert_eq!(b, before);
            assert_eq!(b.wires(), before.wires());
            assert_eq!(b.owed(), before.owed());
            b.edge(&any_inputs(&mut dice, false)).unwrap();
        }
    }
    assert!(seen[4] > 0 && seen[6] > 0 && seen[7] > 0 && seen[8] > 0);
}

#[test]
fn refusals_in_order_and_under_valid_only() {
    let small = Plan::new(4, 4, 0).unwrap();
    let mut b = Bridge::new(small, Slots::all(0));
    let bad = Burst { lock: 2, ..AW };
    let mut x = Inputs {
        aw: Some(bad),
        w: Some(Data { data: 0, strb: 0x10 }),
        ar: Some(Burst { kind: 4, ..AW }),
        lb: Some(4),
        lr: Some(ReadPart { data: 0, code: 4 }),
        ..OPEN
    };
    assert_eq!(b.edge(&x), Err(Refusal::WriteBurst));
    x.aw = None;
    assert_eq!(b.edge(&x), Err(Refusal::DataBeat));
    x.w = Some(Data { data: 1 << 32, strb: 0 });
    assert_eq!(b.edge(&x), Err(Refusal::DataBeat));
    x.w = None;
    assert_eq!(b.edge(&x), Err(Refusal::ReadBurst));
    x.ar = None;
    assert_eq!(b.edge(&x), Err(Refusal::WriteCode));
    x.lb = None;
    assert_eq!(b.edge(&x), Err(Refusal::ReadPart));
    x.lr = Some(ReadPart { data: 1 << 32, code: 0 });
    assert_eq!(b.edge(&x), Err(Refusal::ReadPart));
    x.aw = Some(bad);
    x.aresetn = false;
    assert_eq!(b.edge(&x), Ok(Outcome::default()));
    // the whole width of the upper bus is allowed at U 8
    let mut wide = Bridge::new(plan(), Slots::all(1));
    let x = Inputs { w: Some(Data { data: u64::MAX, strb: 0xff }), ..OPEN };
    assert_eq!(wide.edge(&x).unwrap().crossed, chan::W);
    // every field of a burst at its largest value and one above
    let most = Burst { addr: !0, id: 4095, len: 255, size: 7, kind: 3, lock: 1, cache: 15, prot: 7 };
    assert!(most.fits());
    for over in [
        Burst { id: 4096, ..most },
        Burst { size: 8, ..most },
        Burst { kind: 4, ..most },
        Burst { lock: 2, ..most },
        Burst { cache: 16, ..most },
        Burst { prot: 8, ..most },
    ] {
        assert!(!over.fits());
    }
}

#[test]
fn reset_empties_everything() {
    let mut dice = Dice::new(5);
    for round in 0..400 {
        let slots = Slots::all(dice.index(5));
        let mut b = Bridge::new(plan(), slots);
        for _ in 0..dice.index(60) {
            b.edge(&any_inputs(&mut dice, false)).unwrap();
        }
        let wrong = round % 2 == 0;
        let shown = b.wires();
        let x = Inputs { aresetn: false, ..any_inputs(&mut dice, wrong) };
        assert_eq!(b.wires(), shown);
        assert_eq!(b.edge(&x), Ok(Outcome::default()));
        assert_eq!(b.owed(), (0, 0));
        // from here on it is as a new one
        let mut fresh = Bridge::new(plan(), slots);
        for _ in 0..60 {
            assert_eq!(b.wires(), fresh.wires());
            let x = any_inputs(&mut dice, false);
            assert_eq!(b.edge(&x), fresh.edge(&x));
            assert_eq!(b.owed(), fresh.owed());
        }
    }
}

#[test]
fn full_table_takes_none_while_one_leaves() {
    let mut b = Bridge::new(plan(), Slots::all(1));
    assert_eq!(b.edge(&Inputs { aw: Some(AW), ..OPEN }).unwrap().crossed, chan::AW);
    // the engine takes the burst on this edge, the table was full before it
    let again = Inputs { aw: Some(AW), ..OPEN };
    assert_eq!(b.edge(&again).unwrap().crossed, 0);
    assert_eq!(b.edge(&again).unwrap().crossed, chan::AW);
    assert_eq!(b.owed(), (2, 0));
}

#[test]
fn law_and_lw_in_any_order() {
    for (first, second) in [(chan::LAW, chan::LW), (chan::LW, chan::LAW)] {
        let mut b = Bridge::new(plan(), Slots::all(2));
        let shut = Inputs { lawready: false, lwready: false, lb: Some(0), ..OPEN };
        b.edge(&Inputs { aw: Some(AW), w: Some(W), ..shut }).unwrap();
        for _ in 0..4 {
            b.edge(&shut).unwrap();
        }
        let only = |c| Inputs { lawready: c == chan::LAW, lwready: c == chan::LW, ..shut };
        let o = b.wires();
        assert!(o.lawvalid && o.lwvalid && !o.lbready);
        assert_eq!(b.edge(&only(first)).unwrap().crossed, first);
        assert_eq!(b.edge(&only(first)).unwrap().crossed, 0);
        let o = b.wires();
        assert_eq!((o.lawvalid, o.lwvalid, o.lbready), (first == chan::LW, first == chan::LAW, false));
        if first == chan::LAW {
            assert_eq!((o.lawaddr, o.lawprot), (0, 0));
        } else {
            assert_eq!((o.lwdata, o.lwstrb), (0, 0));
        }
        assert_eq!(b.edge(&only(second)).unwrap().crossed, second);
        assert!(b.wires().lbready);
        assert_eq!(b.edge(&shut).unwrap().crossed, chan::LB);
    }
}

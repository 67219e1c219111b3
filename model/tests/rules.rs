//! The worked examples of RULES.md and its tables, and the fast paths against the formulas.

use model::dice::Dice;
use model::rules::*;

fn burst(kind: u8, addr: u32, s: u32, n: u32) -> Burst {
    Burst { addr, len: (n - 1) as u8, size: s.trailing_zeros() as u8, kind, ..Burst::default() }
}

fn addresses(b: &Burst) -> Vec<u64> {
    (0..b.beats()).map(|i| b.address(i)).collect()
}

fn plan(u: u8, l: u8, level: u8) -> Plan {
    Plan::new(u, l, level).unwrap()
}

fn verdict(p: &Plan, b: &Burst) -> u8 {
    p.judge(b).verdict.number()
}

#[test]
fn plans() {
    for u in 0..=255u8 {
        for l in [0, 2, 4, 5, 8, 16, 255] {
            for level in [0, 1, 2, 3, 255] {
                let width = |w| w == 4 || w == 8;
                let expected = if !width(u) || !width(l) {
                    Some(1)
                } else if l > u {
                    Some(2)
                } else if level > 2 {
                    Some(3)
                } else {
                    None
                };
                assert_eq!(Plan::new(u, l, level).err().map(Refusal::number), expected);
            }
        }
    }
}

#[test]
fn worked_addresses() {
    assert_eq!(addresses(&burst(INCR, 0x1001, 4, 3)), [0x1001, 0x1004, 0x1008]);
    assert_eq!(addresses(&burst(WRAP, 0x1008, 4, 4)), [0x1008, 0x100c, 0x1000, 0x1004]);
    assert_eq!(addresses(&burst(FIXED, 0x1003, 2, 2)), [0x1003, 0x1003]);
}

#[test]
fn worked_parts() {
    let p = plan(8, 4, 0);
    assert_eq!(p.parts(0x1005, 8), [0x1005]);
    assert_eq!(p.lane(0x1005), 4);
    assert_eq!(p.parts(0x1002, 8), [0x1002, 0x1004]);
    assert_eq!(p.lane(0x1002), 0);
    assert_eq!(p.lane(0x1004), 4);
    assert_eq!(p.parts(0x1004, 8), [0x1004]);
    assert_eq!(p.parts(0x1008, 8), [0x1008, 0x100c]);
    assert_eq!(p.parts(0xffff_ffff, 8), [0xffff_ffff]);
    assert_eq!(p.parts(0xffff_fff8, 8), [0xffff_fff8, 0xffff_fffc]);
    for s in [1, 2, 4] {
        for at in [0x1000, 0x1003, 0x1006, 0xffff_ffff] {
            assert_eq!(p.parts(at, s), [at]);
        }
    }
    let full = plan(8, 8, 0);
    assert_eq!(full.parts(0x1002, 8), [0x1002]);
    assert_eq!(full.lane(0x1007), 0);
    let small = plan(4, 4, 0);
    assert_eq!(small.parts(0x1006, 4), [0x1006]);
    assert_eq!(small.lane(0x1006), 0);

    let beat = Data { data: 0x1122334455667788, strb: 0xfc };
    assert_eq!(p.down(0x1002, &beat), Data { data: 0x55667788, strb: 0xc });
    assert_eq!(p.down(0x1004, &beat), Data { data: 0x11223344, strb: 0xf });
    assert_eq!(full.down(0x1004, &beat), beat);
    assert_eq!(p.up(0x1004, 0xcafe), 0xcafe_0000_0000);
    assert_eq!(p.up(0x1008, 0xcafe), 0xcafe);
}

#[test]
fn parts_by_the_text() {
    // "a part at A, then one at each multiple of L that is above A and below A - A mod S + S"
    for (u, l) in [(4u8, 4u8), (8, 4), (8, 8)] {
        let p = plan(u, l, 0);
        for s in [1u64, 2, 4, 8].into_iter().filter(|&s| s <= u as u64) {
            for a in (0x1000u64..0x1020).chain((1 << 32) - 32..1 << 32) {
                let mut expected = vec![a as u32];
                if s > l as u64 {
                    for m in a + 1..a - a % s + s {
                        if m % l as u64 == 0 {
                            expected.push(m as u32);
                        }
                    }
                }
                assert_eq!(p.parts(a as u32, s as u32), expected);
                for &part in &expected {
                    assert_eq!(p.lane(part), part % u as u32 - part % l as u32);
                }
            }
        }
    }
}

#[test]
fn worked_verdicts() {
    let p = plan(8, 4, 0);
    assert_eq!(verdict(&p, &burst(INCR, 0xff8, 4, 2)), 0);
    assert_eq!(p.judge(&burst(INCR, 0xff8, 4, 2)).protect.number(), 7);
    assert_eq!(verdict(&plan(8, 4, 2), &burst(INCR, 0xff8, 4, 2)), 7);
    assert_eq!(verdict(&p, &burst(INCR, 0xff8, 4, 3)), 6);
    assert_eq!(verdict(&p, &burst(INCR, 0xffff_fffc, 4, 1)), 0);
    assert_eq!(verdict(&p, &burst(INCR, 0xffff_fffc, 4, 2)), 6);
    assert_eq!(verdict(&p, &burst(FIXED, 0x1000, 4, 16)), 0);
    assert_eq!(verdict(&p, &burst(FIXED, 0x1000, 4, 17)), 3);
    assert_eq!(verdict(&p, &burst(WRAP, 0x1002, 4, 3)), 4);
    assert_eq!(verdict(&p, &burst(WRAP, 0x1002, 4, 4)), 5);
    let cached = Burst { cache: 3, ..burst(INCR, 0x1000, 2, 1) };
    assert_eq!(verdict(&plan(8, 4, 1), &cached), 0);
    assert_eq!(verdict(&plan(8, 4, 2), &cached), 9);
}

#[test]
fn judging_alone() {
    let p = plan(8, 8, 0);
    let b = burst(INCR, 0, 1, 1);
    for kind in 3..=255 {
        assert_eq!(verdict(&p, &Burst { kind, size: 255, ..b }), 1);
    }
    for size in 4..=255 {
        assert_eq!(verdict(&p, &Burst { size, ..b }), 2);
    }
}

/// The table of verdicts row by row, in numbers that cannot wrap.
fn by_the_table(u: u64, l: u64, level: u64, b: &Burst) -> u8 {
    let n = b.len as u64 + 1;
    let s = if b.size > 7 { 256 } else { 1u64 << b.size };
    let a = b.addr as u64;
    let rows = [
        b.kind >= 3,
        s > u,
        b.kind == 0 && n > 16,
        b.kind == 2 && ![2, 4, 8, 16].contains(&n),
        b.kind == 2 && a % s != 0,
        b.kind == 1 && a - a % s + n * s > a - a % 4096 + 4096,
        level >= 1 && n > 1,
        level >= 1 && s > l,
        level == 2 && s < l,
        level == 2 && (b.lock == 1 || b.cache != 0),
    ];
    rows.iter().position(|&r| r).map_or(0, |k| k as u8 + 1)
}

#[test]
fn verdicts_by_the_table() {
    let mut dice = Dice::new(7);
    let mut seen = [0u32; 11];
    for _ in 0..400_000 {
        let (u, l) = dice.pick(&[(4, 4), (8, 4), (8, 8)]);
        let level = dice.below(3);
        let addr = match dice.below(3) {
            0 => dice.below(1 << 32),
            1 => (0x1000 * dice.range(1, 0x10_0000) - dice.range(1, 2200)) as u64,
            _ => 8 * dice.below(1 << 20),
        } as u32;
        let len = dice.pick(&[0, 0, 0, 1, 3, 7, 15, 16, 255, dice.clone().below(256)]);
        let b = Burst {
            addr,
            id: 0,
            len: len as u8,
            size: dice.below(6) as u8,
            kind: dice.below(4) as u8,
            lock: (dice.below(4) == 0) as u8,
            cache: (dice.below(3) == 0) as u8,
            prot: 0,
        };
        let j = plan(u, l, level as u8).judge(&b);
        assert_eq!(j.verdict.number(), by_the_table(u as u64, l as u64, level, &b), "{b:?}");
        assert_eq!(j.protect.number(), by_the_table(u as u64, l as u64, 2, &b), "{b:?}");
        seen[j.verdict.number() as usize] += 1;
    }
    assert!(seen.iter().all(|&n| n > 0), "{seen:?}");
}

#[test]
fn codes() {
    let all = |codes: &[u8]| codes.iter().fold(OKAY, |c, &x| join(c, heard(x)));
    assert_eq!(all(&[0, 3, 2]), 3);
    assert_eq!(all(&[0, 2, 3]), 2);
    assert_eq!(all(&[1, 1]), 0);
    assert_eq!(all(&[1, 3]), 3);
    assert_eq!(all(&[]), 0);
    for a in [0, 2, 3] {
        assert_eq!((join(OKAY, a), join(a, OKAY)), (a, a));
        for b in [0, 2, 3] {
            for c in [0, 2, 3] {
                assert_eq!(join(join(a, b), c), join(a, join(b, c)));
            }
        }
    }
}

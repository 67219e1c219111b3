//! The transcripts, the fault table and the fine points of SCRIPTS.md.

use model::make::{READ_EXAMPLE, WRITE_EXAMPLE};
use model::{pack, play};

fn text(script: &[u8]) -> String {
    String::from_utf8(play(script)).unwrap()
}

const WRITE_OUT: &str = "0 AW 5 0\n0 W 1122334455667788 fc\n3 LAW 1002 2\n3 LW 55667788 c\n4 LB 3\n\
5 LAW 1004 2\n5 LW 11223344 f\n6 LB 2\n8 B 5 3\nowed 0 0\n";

const READ_OUT: &str = "0 AR 7 0\n2 LAR 1004 0\n3 LR cafe 0\n5 R 7 cafe00000000 0 0\n5 LAR 1008 0\n\
6 LR beef 1\n7 LAR 100c 0\n8 LR 12345678 2\na R 7 123456780000beef 2 1\nowed 0 0\n";

#[test]
fn transcripts() {
    assert_eq!(text(WRITE_EXAMPLE.as_bytes()), WRITE_OUT);
    assert_eq!(text(READ_EXAMPLE.as_bytes()), READ_OUT);
}

fn changed(from: &str, to: &str) -> String {
    assert!(WRITE_EXAMPLE.contains(from));
    WRITE_EXAMPLE.replacen(from, to, 1)
}

#[test]
fn fault_table() {
    let table: Vec<(String, &str)> = vec![
        (String::new(), "fault sections 23 1 0"),
        (changed("bridge", "brigde"), "fault words 21 1 0"),
        (changed("8 4", "8  4"), "fault words 21 1 9"),
        (changed("8 4 0", "8 4"), "fault words 21 1 10"),
        (changed("writes 1", "writes 1 "), "fault words 21 2 21"),
        (WRITE_EXAMPLE.replace('\n', "\r\n"), "fault words 21 1 11"),
        (changed("writes 1", "writes 2"), "fault words 21 4 41"),
        (changed("1002 0 ", "1002 100 "), "fault words 22 3 29"),
        (changed("fc", "FC"), "fault words 21 5 66"),
        (changed("3ff", "400"), "fault words 22 12 107"),
        (WRITE_EXAMPLE[..WRITE_EXAMPLE.len() - 1].into(), "fault sections 23 20 142"),
        (changed("gates 9", "gates a"), "fault sections 23 21 143"),
        (changed("gates 9", "gates 8"), "fault sections 24 20 139"),
        (WRITE_EXAMPLE.to_string() + "3ff\n", "fault sections 24 21 143"),
        (changed("8 4 0", "4 8 0"), "fault bridge 2 1 0"),
        (changed("\n5 ", "\n1000 "), "fault bridge 4 12 110"),
    ];
    for (script, line) in table {
        assert_eq!(text(script.as_bytes()), format!("{line}\n"), "{script}");
    }
    let lines: String = WRITE_OUT.split_inclusive('\n').take(5).collect();
    assert_eq!(text(changed("\n2\n", "\n4\n").as_bytes()), lines + "fault bridge 7 17 127\n");
}

#[test]
fn walk_through() {
    assert_eq!(text(b""), "fault sections 23 1 0\n");
    let empty = "bridge 8 4 0\nwrites 0\nbeats 0\nreads 0\nwcodes 0\nrparts 0\ngates 0\n";
    assert_eq!(text(empty.as_bytes()), "owed 0 0\n");
    let one = empty
        .replace("reads 0\n", "reads 1\n7 1000 0 2 1 0 0 0\n")
        .replace("rparts 0\n", "rparts 1\ncafe 0\n");
    let six = one.replace("gates 0\n", "gates 6\n3ff\n3ff\n3ff\n3ff\n3ff\n3ff\n");
    assert_eq!(text(six.as_bytes()), "0 AR 7 0\n2 LAR 1000 0\n3 LR cafe 0\n5 R 7 cafe 0 1\nowed 0 0\n");
    let stalled = one.replace("gates 0\n", "gates 8\n3ff\n3ff\n3ff\n1ff\n1ff\n3ff\n3ff\n3ff\n");
    assert_eq!(text(stalled.as_bytes()), "0 AR 7 0\n2 LAR 1000 0\n5 LR cafe 0\n7 R 7 cafe 0 1\nowed 0 0\n");
}

#[test]
fn fine_points() {
    let cases: [(&[u8], &str); 24] = [
        (b"bridg", "fault words 21 1 0"),
        (b"bridge", "fault sections 23 1 6"),
        (b"bridge ", "fault sections 23 1 7"),
        (b"bridge 8", "fault sections 23 1 8"),
        (b"bridge 8 4 0", "fault sections 23 1 12"),
        (b"bridge 8 4 0\n", "fault sections 23 2 13"),
        (b"bridges 8 4 0\n", "fault words 21 1 0"),
        (b"Bridge 8 4 0\n", "fault words 21 1 0"),
        (b" bridge 8 4 0\n", "fault words 21 1 0"),
        (b"\nbridge 8 4 0\n", "fault words 21 1 0"),
        (b"bridge 8 4 0\n\n", "fault words 21 2 13"),
        (b"bridge 8 4 0 ", "fault words 21 1 12"),
        (b"bridge\t8 4 0\n", "fault words 21 1 0"),
        (b"bridge\n8 4 0\n", "fault words 21 1 6"),
        // 21 before 22 in a number, 22 before a wrong separator
        (b"bridge 0000000000000000g 4 0\n", "fault words 21 1 7"),
        (b"bridge 00000000000000008 4 0\n", "fault words 22 1 7"),
        (b"bridge 0000000000000008 4 0", "fault sections 23 1 27"),
        (b"bridge 100\n", "fault words 22 1 7"),
        (b"bridge 100", "fault words 22 1 7"),
        (b"bridge 8 4 0\nwrites ffff", "fault sections 23 2 24"),
        (b"bridge 8 4 0\nwrites ffff\n", "fault sections 23 3 25"),
        (b"bridge 8 4 0\nwrites 10000\n", "fault words 22 2 20"),
        (b"bridge 8 4 0\nwrites 5\n1 2\n", "fault words 21 3 25"),
        (b"bridge 8 4 0\n8 4 0\n", "fault words 21 2 13"),
    ];
    for (script, line) in cases {
        assert_eq!(text(script), format!("{line}\n"), "{}", String::from_utf8_lossy(script));
    }
    // leading zeros are read
    let zeros = WRITE_EXAMPLE.replacen("bridge 8", "bridge 0000000000000008", 1);
    assert_eq!(text(zeros.as_bytes()), WRITE_OUT);
    // a lone byte behind the last gate
    for more in ["\n", " ", "\r", "3"] {
        let s = WRITE_EXAMPLE.to_string() + more;
        assert_eq!(text(s.as_bytes()), "fault sections 24 21 143\n");
    }
    // 20 to 24 come before 1 to 3
    let both = WRITE_EXAMPLE.replacen("8 4 0", "2 4 0", 1);
    assert_eq!(text(both.as_bytes()), "fault bridge 1 1 0\n");
    assert_eq!(text((both + "\n").as_bytes()), "fault sections 24 21 143\n");
    let level = WRITE_EXAMPLE.replacen("8 4 0", "8 4 3", 1);
    assert_eq!(text(level.as_bytes()), "fault bridge 3 1 0\n");
    // ID above its carrier is of the script, above its largest value of the edge
    assert_eq!(text(changed("\n5 ", "\n10000 ").as_bytes()), "fault words 22 3 22\n");
    // too large and never offered
    let never = changed("\n5 ", "\n1000 ").replace("3ff", "3fe");
    assert_eq!(text(never.as_bytes()), "0 W 1122334455667788 fc\nowed 0 0\n");
}

#[test]
fn length() {
    let exactly = |n: usize| {
        let head = "bridge 8 4 0\nwrites 0\nbeats 0\nreads 0\nwcodes 0\nrparts 0\n";
        for lines in 1..9000 {
            let count = format!("gates {lines:x}\n");
            let least = head.len() + count.len() + 2 * lines;
            if least + 15 >= n {
                let mut s = head.to_string() + &count;
                s += &"0\n".repeat(lines - 1);
                s += &"0".repeat(n - s.len() - 1);
                s += "\n";
                assert_eq!(s.len(), n);
                return s;
            }
        }
        unreachable!()
    };
    assert_eq!(text(exactly(16_384).as_bytes()), "owed 0 0\n");
    assert_eq!(text(exactly(16_385).as_bytes()), "fault words 20 1 0\n");
    assert_eq!(text(&vec![b'\n'; 16_385]), "fault words 20 1 0\n");
    assert_eq!(text(&vec![b'\n'; 16_384]), "fault words 21 1 0\n");
}

#[test]
fn verdict_ten_prints_as_a() {
    let s = "bridge 4 4 2\nwrites 0\nbeats 0\nreads 1\nfff 1000 0 2 1 1 0 0\nwcodes 0\nrparts 0\n\
gates 4\n3ff\n3ff\n3ff\n3ff\n";
    assert_eq!(text(s.as_bytes()), "0 AR fff a\n3 R fff 0 2 1\nowed 0 0\n");
}

#[test]
fn every_cut_of_the_example() {
    for n in 0..WRITE_EXAMPLE.len() {
        let (head, tail) = WRITE_EXAMPLE.split_at(n);
        let line = 1 + head.matches('\n').count();
        let word = head.rfind([' ', '\n']).map_or(0, |k| k + 1);
        // a keyword that lost its end is another word; everything else just ends too early
        let whole = WRITE_EXAMPLE[word..].split([' ', '\n']).next().unwrap();
        let cut_keyword = whole.contains(|c| c > 'f') && n > word && !tail.starts_with(' ');
        let expected = if cut_keyword {
            format!("fault words 21 {line} {word}\n")
        } else {
            format!("fault sections 23 {line} {n}\n")
        };
        assert_eq!(text(head.as_bytes()), expected, "{n}");
    }
}

#[test]
fn packs() {
    let mut bytes = Vec::new();
    pack::put(&mut bytes, WRITE_EXAMPLE.as_bytes(), WRITE_OUT.as_bytes()).unwrap();
    pack::put(&mut bytes, b"", b"fault sections 23 1 0\n").unwrap();
    let all = pack::split(&bytes).unwrap();
    assert_eq!(all, [(WRITE_EXAMPLE.as_bytes(), WRITE_OUT.as_bytes()), (b"", b"fault sections 23 1 0\n")]);
    assert!(pack::split(&bytes[..bytes.len() - 1]).is_none());
}

//! A pack: for each script `script LEN` 0a, LEN bytes, `out LEN` 0a, LEN bytes. LEN is decimal,
//! nothing stands between or after the pieces.

use std::io::{self, Write};

pub fn put(to: &mut impl Write, script: &[u8], out: &[u8]) -> io::Result<()> {
    writeln!(to, "script {}", script.len())?;
    to.write_all(script)?;
    writeln!(to, "out {}", out.len())?;
    to.write_all(out)
}

/// Takes one piece with the given name off the front.
fn piece<'a>(bytes: &mut &'a [u8], name: &str) -> Option<&'a [u8]> {
    let end = bytes.iter().position(|&b| b == b'\n')?;
    let head = std::str::from_utf8(&bytes[..end]).ok()?;
    let len: usize = head.strip_prefix(name)?.strip_prefix(' ')?.parse().ok()?;
    let body = bytes.get(end + 1..end + 1 + len)?;
    *bytes = &bytes[end + 1 + len..];
    Some(body)
}

/// All pairs of script and transcript, or nothing if the pack is broken.
pub fn split(mut bytes: &[u8]) -> Option<Vec<(&[u8], &[u8])>> {
    let mut all = Vec::new();
    while !bytes.is_empty() {
        let script = piece(&mut bytes, "script")?;
        all.push((script, piece(&mut bytes, "out")?));
    }
    Some(all)
}

use std::env;
use std::fs;
use std::io::{self, BufWriter, Read, Write};
use std::path::{Path, PathBuf};
use std::process::ExitCode;

use model::cover::{report, Tally};
use model::dice::Dice;
use model::player::Nobody;
use model::{bench, make, pack, play, play_seen};

fn main() -> ExitCode {
    let args: Vec<String> = env::args().skip(1).collect();
    let words: Vec<&str> = args.iter().map(String::as_str).collect();
    let done = match words.as_slice() {
        ["play", rest @ ..] => play_file(rest.first().copied()),
        ["vectors", seed, count, dir] => numbers(seed, count).and_then(|(s, c)| vectors(s, c, Path::new(dir))),
        ["check", dir] => check(Path::new(dir)),
        ["check-pack", file] => check_pack(file),
        ["pack", dir, file] => pack_all(Path::new(dir), file),
        ["fuzz-batch", seed, count] => numbers(seed, count).and_then(|(s, c)| fuzz_batch(s, c)),
        ["cover", seed, count, each] => numbers(seed, count).and_then(|(s, c)| cover(s, c, number(each)? as usize)),
        ["bench", edges] => number(edges).map(speed),
        _ => Err(io::Error::other(
            "model play [FILE] | vectors SEED COUNT DIR | check DIR | pack DIR FILE | check-pack FILE | fuzz-batch SEED COUNT | cover SEED COUNT EACH | bench EDGES",
        )),
    };
    match done {
        Ok(true) => ExitCode::SUCCESS,
        Ok(false) => ExitCode::from(1),
        Err(e) => {
            eprintln!("model: {e}");
            ExitCode::from(1)
        }
    }
}

type Done = io::Result<bool>;

fn number(s: &str) -> io::Result<u64> {
    s.parse().map_err(|_| io::Error::other(format!("{s} is not a number")))
}

fn numbers(a: &str, b: &str) -> io::Result<(u64, usize)> {
    Ok((number(a)?, number(b)? as usize))
}

fn play_file(file: Option<&str>) -> Done {
    let script = match file {
        Some(f) => fs::read(f)?,
        None => {
            let mut all = Vec::new();
            io::stdin().lock().read_to_end(&mut all)?;
            all
        }
    };
    let played = play_seen(&script, &mut Nobody);
    io::stdout().lock().write_all(&played.transcript)?;
    Ok(played.sound)
}

fn vectors(seed: u64, count: usize, dir: &Path) -> Done {
    fs::create_dir_all(dir)?;
    let mut dice = Dice::new(seed);
    let mut all = make::directed(&mut dice);
    all.truncate(count);
    while all.len() < count {
        let next = loop {
            let one = make::fresh(&mut dice);
            // the directed ones have enough of the long ones
            if one.0.len() < 2048 || dice.percent(3) {
                break one;
            }
        };
        all.push(next);
    }
    let mut tally = Tally::default();
    let mut total = 0;
    for (k, (script, damage)) in all.iter().enumerate() {
        let played = play_seen(script, &mut tally);
        tally.ends(script, &played.transcript, played.sound);
        tally.damage[*damage] += 1;
        total += script.len() + played.transcript.len();
        fs::write(dir.join(format!("{k:04}.script")), script)?;
        fs::write(dir.join(format!("{k:04}.out")), &played.transcript)?;
    }
    let (table, missing) = report(&tally);
    print!("{table}");
    println!("\n{} scripts, {total} bytes with transcripts, {missing} required things not reached", all.len());
    Ok(missing == 0)
}

fn scripts(dir: &Path) -> io::Result<Vec<PathBuf>> {
    let mut all = Vec::new();
    for entry in fs::read_dir(dir)? {
        let path = entry?.path();
        if path.extension().is_some_and(|e| e == "script") {
            all.push(path);
        }
    }
    all.sort();
    Ok(all)
}

fn check(dir: &Path) -> Done {
    let all = scripts(dir)?;
    let mut agree = 0;
    for path in &all {
        let out = fs::read(path.with_extension("out")).ok();
        if out.as_deref() == Some(&play(&fs::read(path)?)) {
            agree += 1;
        } else {
            println!("differs: {}", path.display());
        }
    }
    println!("{agree} of {} agree", all.len());
    Ok(agree == all.len())
}

fn check_pack(file: &str) -> Done {
    let bytes = fs::read(file)?;
    let all = pack::split(&bytes).ok_or_else(|| io::Error::other("not a pack"))?;
    let agree = all.iter().filter(|(script, out)| play(script) == *out).count();
    println!("{agree} of {} agree", all.len());
    Ok(agree == all.len())
}

fn pack_all(dir: &Path, file: &str) -> Done {
    let mut to = BufWriter::new(fs::File::create(file)?);
    for path in scripts(dir)? {
        pack::put(&mut to, &fs::read(&path)?, &fs::read(path.with_extension("out"))?)?;
    }
    to.flush()?;
    Ok(true)
}

/// The scripts of one seed: the directed ones with data of this seed, then random ones.
fn batch(seed: u64, count: usize) -> impl Iterator<Item = (Vec<u8>, usize)> {
    let mut dice = Dice::new(seed);
    let directed = make::directed(&mut dice);
    directed.into_iter().chain(std::iter::repeat_with(move || make::fresh(&mut dice))).take(count)
}

fn fuzz_batch(seed: u64, count: usize) -> Done {
    let mut to = BufWriter::with_capacity(1 << 16, io::stdout().lock());
    for (script, _) in batch(seed, count) {
        pack::put(&mut to, &script, &play(&script))?;
    }
    to.flush()?;
    Ok(true)
}

/// What COUNT scripts of fuzz-batch reach, EACH of a seed from SEED on.
fn cover(seed: u64, count: usize, each: usize) -> Done {
    let mut tally = Tally::default();
    for (k, from) in (0..count).step_by(each.max(1)).enumerate() {
        for (script, damage) in batch(seed.wrapping_add(k as u64), each.min(count - from)) {
            let played = play_seen(&script, &mut tally);
            tally.ends(&script, &played.transcript, played.sound);
            tally.damage[damage] += 1;
        }
    }
    let (table, missing) = report(&tally);
    print!("{table}");
    println!("\n{count} scripts, {missing} required things not reached");
    Ok(true)
}

fn speed(edges: u64) -> bool {
    for (name, stalls) in [("all ready", false), ("irregular stalls", true)] {
        let r = bench::bench(edges, stalls);
        println!(
            "{name}: {} edges in {:.3} s, {:.0} edges/s, sum {:016x}",
            r.edges,
            r.time.as_secs_f64(),
            r.rate(),
            r.sum
        );
    }
    true
}

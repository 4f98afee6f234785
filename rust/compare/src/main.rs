//! Compares the proved reader with the plain one on descriptions made from seeds.
//!
//! `compare [--seed S] [--loads N] [--writes M] [--seconds T] [--out DIR] [--trace]`
mod aimed;
mod both;
mod case;
mod counts;
mod damage;
mod generate;
mod large;
mod lent;
mod pairs;
mod requests;
mod rng;
mod share;
mod spell;
mod steps;
mod token;

use aimed::AIMS;
use case::{Run, Subject};
use counts::{Counts, Stats};
use std::path::{Path, PathBuf};
use std::time::{Duration, Instant};

/// A run of more loads than this must have met every number.
const ENOUGH: u64 = 20_000;

/// What the arguments say.
struct Options {
    seed: u64,
    loads: Option<u64>,
    writes: u64,
    seconds: Option<u64>,
    out: PathBuf,
    trace: bool,
}

const USAGE: &str = "usage: compare [--seed S] [--loads N] [--writes M] [--seconds T] [--out DIR] [--trace]
  --seed S     the first case's seed (0); the next case has the next seed. Seeds 0 to 31 are the large ones
  --loads N    end after N loads (2000, or no end where --seconds is given)
  --writes M   writes to each accepted description (12), and a pair in either order for every 4 or 12 of them
  --seconds T  end after T seconds
  --out DIR    where a difference's description, image and requests are written (compare-failure)
  --trace      print each seed before its case, to find one that ends the program";

/// Reads the arguments.
fn options() -> Result<Options, String> {
    let mut options =
        Options { seed: 0, loads: None, writes: 12, seconds: None, out: "compare-failure".into(), trace: false };
    let mut words = std::env::args().skip(1);
    while let Some(word) = words.next() {
        if word == "--trace" {
            options.trace = true;
            continue;
        }
        let value = words.next().ok_or(format!("{word} without a value"))?;
        let number = || value.parse::<u64>().map_err(|_| format!("{word} {value}: not a number"));
        match word.as_str() {
            "--seed" => options.seed = number()?,
            "--loads" => options.loads = Some(number()?),
            "--writes" => options.writes = number()?,
            "--seconds" => options.seconds = Some(number()?),
            "--out" => options.out = value.clone().into(),
            _ => return Err(format!("unknown word {word}")),
        }
    }
    Ok(options)
}

/// Prints how many answers of each number there were.
fn histogram(what: &str, counts: &Counts) {
    let shown: Vec<String> = counts
        .rows()
        .map(|(number, count)| if number == 0 { format!("accepted {count}") } else { format!("{number}: {count}") })
        .collect();
    println!("{what:<18} {}", shown.join(", "));
}

/// Prints counts with their names.
fn named(what: &str, rows: &[(&str, u64)]) {
    let shown: Vec<String> = rows.iter().map(|(name, count)| format!("{name}: {count}")).collect();
    println!("{what:<18} {}", shown.join(", "));
}

/// Prints what a run counted.
fn print_counts(stats: &Stats) {
    histogram("load", &stats.load_answers);
    histogram("raw write", &stats.raw_answers);
    histogram("physical write", &stats.physical_answers);
    histogram("other calls", &stats.other_answers);
    histogram("damaged tables", &stats.damaged_answers);
    for (aim, count) in AIMS.iter().zip(stats.aimed) {
        let answer = if aim.breaks { "22" } else { "keeps" };
        println!("  {:<40} {answer}: {count}", aim.what);
    }
    let (loads, writes) = (stats.loads_without, stats.writes_without);
    println!("{:<18} loads {loads}, writes {writes}", "exponents out");
    named("stored value", &stats.stored.rows());
    named("  damaged tables", &stats.stored_damaged.rows());
    named("exact halves", &stats.halves.rows());
    named("both editions", &stats.editions());
    histogram("writes of pairs", &stats.pairs.answers);
    named("either order", &stats.pairs.rows());
    named("  in a shared byte", &stats.pairs.close_rows());
    named("merged rows", &stats.merges.rows());
    println!("{:<18} {}", "buffers too short", stats.short_calls);
    println!("{:<18} {}", "elements", stats.elements);
}

/// The numbers that should have occurred and have not.
fn never(stats: &Stats) -> Vec<String> {
    let mut missing = Vec::new();
    let mut look = |what: &str, counts: &Counts, numbers: &[u8]| {
        for &number in numbers {
            if counts.of(number) == 0 {
                missing.push(format!("{what} {number}"));
            }
        }
    };
    look("load", &stats.load_answers, &[0, 1, 2, 3, 4, 5, 6, 7, 8, 9, 10, 11, 12, 13, 20, 33]);
    look("raw write", &stats.raw_answers, &[0, 14, 18, 19, 21]);
    look("physical write", &stats.physical_answers, &[0, 14, 15, 16, 17, 18, 19, 21]);
    look("damaged tables", &stats.damaged_answers, &[0, 20, 22]);
    look("a pair's write", &stats.pairs.answers, &[0, 14, 15, 16, 18, 19, 21]);
    for (aim, _) in AIMS.iter().zip(stats.aimed).filter(|&(_, count)| count == 0) {
        missing.push(aim.what.to_string());
    }
    if stats.loads_without == 0 || stats.writes_without == 0 {
        missing.push("a load and a write without their exponents".to_string());
    }
    let mut look = |kind: &str, rows: &[(&str, u64)]| {
        for (what, _) in rows.iter().filter(|&&(_, count)| count == 0) {
            missing.push(format!("{kind}: {what}"));
        }
    };
    look("a stored value", &stats.stored.rows());
    look("a stored value over damaged tables", &stats.stored_damaged.rows()[..1]);
    look("an exact half", &stats.halves.rows());
    look("both editions", &stats.editions());
    look("either order", &stats.pairs.rows());
    look("either order in a shared byte", &stats.pairs.close_rows());
    look("merged rows", &stats.merges.rows());
    missing
}

/// Writes what a difference is about to files.
fn write_files(out: &Path, seed: u64, why: &str, subject: &Subject) -> std::io::Result<()> {
    std::fs::create_dir_all(out)?;
    std::fs::write(out.join("description.a2l"), &subject.text)?;
    std::fs::write(out.join("image.bin"), &subject.image)?;
    let mut requests = format!("seed {seed}\nbase {:#x}\nedition {}\n", subject.base, subject.edition);
    for request in &subject.requests {
        requests += request;
        requests.push('\n');
    }
    requests += &format!("difference: {why}\n");
    std::fs::write(out.join("requests.txt"), requests)
}

/// Runs the cases; gives the exit status.
fn run(options: &Options) -> i32 {
    let start = Instant::now();
    let most = options.loads.unwrap_or(if options.seconds.is_some() { u64::MAX } else { 2000 });
    let end = options.seconds.map(Duration::from_secs);
    let mut run = Run::new(options.writes);
    let mut subject = Subject::default();
    let mut seed = options.seed;
    while run.stats.loads < most && end.is_none_or(|end| start.elapsed() < end) {
        if options.trace {
            eprintln!("seed {seed}");
        }
        let case = std::panic::AssertUnwindSafe(|| run.case(seed, &mut subject));
        let answer = std::panic::catch_unwind(case).unwrap_or(Err("a panic".to_string()));
        if let Err(why) = answer {
            println!("seed {seed}: {why}");
            println!("again: compare --seed {seed} --loads 1 --writes {}", options.writes);
            match write_files(&options.out, seed, &why, &subject) {
                Ok(()) => println!("description.a2l, image.bin and requests.txt are in {}", options.out.display()),
                Err(error) => println!("{}: {error}", options.out.display()),
            }
            if let Some(text) = run.smaller(&subject) {
                println!("small.a2l of {} bytes is loaded differently too", text.len());
                if let Err(error) = std::fs::write(options.out.join("small.a2l"), text) {
                    println!("{}: {error}", options.out.display());
                }
            }
            return 1;
        }
        seed = seed.wrapping_add(1);
    }
    let stats = &run.stats;
    print_counts(stats);
    println!("{:<18} {:.1}", "seconds", start.elapsed().as_secs_f64());
    let missing = never(stats);
    if !missing.is_empty() {
        println!("{:<18} {}", "never occurred", missing.join(", "));
        if stats.loads > ENOUGH {
            return 1;
        }
    }
    println!("compare: {} loads, {} writes, no difference", stats.loads, stats.writes);
    0
}

/// Runs the comparison.
fn main() {
    match options() {
        Ok(options) => std::process::exit(run(&options)),
        Err(why) => {
            eprintln!("{why}\n{USAGE}");
            std::process::exit(2);
        }
    }
}

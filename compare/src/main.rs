//! The commands of the comparison.

mod sample;

use compare::ours::Ours;
use compare::{bench, inspected, largest, ordinary, run, sweep, vectors, write};
use std::process::ExitCode;

const HELP: &str = "\
compare: the proved ARW6 tile decoder against the original in Rust

  compare run [--seed S] [--count N] [--out FILE]
        N random cases (default 10000) over streams, damaged streams and strips, and one table.
        A mismatch ends with status 1, and the smallest case found is written to FILE
        (default mismatch.bin)
  compare sweep [--out FILE]
        the same for every byte value in the heads of small streams and strips, every length of
        them and every 16 bits at the start and at the end of a record
  compare ordinary [--seed S] [--count N] [--out FILE]
        N random tiles (default 10000) with selectors up to 4, held against a synthesis on whole
        numbers, and one table with the largest magnitude of each stage. A mismatch ends with
        status 1, and the shortest stream that fails is written to FILE (default mismatch.bin)
  compare write [--seed S] [--count N] [--out FILE]
        N random calls of the writer (default 10000) and one table: bytes, refusals and slices are a
        model's, and the original decodes each stream to the planes again. A mismatch ends with
        status 1, and the first case, made smaller, is written to FILE (default mismatch.bin)
  compare records [--seed S] [--count N] [--out FILE]
        N random streams (default 10000), all records of small tiles and some of larger ones asked
        for one by one, and one table: answers and bands are the original's, sums the tile's. A
        mismatch ends with status 1, and the shortest stream that fails is written to FILE (default
        mismatch.bin)
  compare largest
        a search for the largest numbers of such tiles, and tables of what was found; a tile on
        which decoders and whole numbers part ends with status 1
  compare bench [--only tile|coefficients|write]
        thread CPU time of one tile, the best of 9, the original in serial order and ours, and
        of writing its planes
  compare vectors DIR [--seed S]
        DIR/stdin, fixed cases with the original's answers, in the format that README.md
        describes, and DIR/stdout, what the program replay prints for them
  compare sample > FILE
        the sample frame file, a segment joint in two tiles
  compare --help
        this text
";

fn main() -> ExitCode {
    let words: Vec<String> = std::env::args().skip(1).collect();
    match command(&words) {
        Ok(code) => code,
        Err(what) => {
            eprintln!("compare: {what}; compare --help lists the commands");
            ExitCode::from(2)
        }
    }
}

fn command(words: &[String]) -> Result<ExitCode, String> {
    if words.iter().any(|w| w == "--help" || w == "-h") {
        print!("{HELP}");
        return Ok(ExitCode::SUCCESS);
    }
    let (name, rest) = words.split_first().ok_or("no command")?;
    match name.as_str() {
        "run" => {
            let options = Options::parse(rest, &["--seed", "--count", "--out"])?;
            let (seed, count) = (options.number("--seed", 1)?, options.number("--count", 10_000)?);
            tell(run::run(&Ours, seed, count as usize), &options)
        }
        "sweep" => {
            let options = Options::parse(rest, &["--out"])?;
            tell(run::check_all(&Ours, sweep::cases()), &options)
        }
        "ordinary" => {
            let options = Options::parse(rest, &["--seed", "--count", "--out"])?;
            let (seed, count) = (options.number("--seed", 1)?, options.number("--count", 10_000)?);
            let (tally, failing) = ordinary::run(&Ours, seed, count as usize);
            tally.print();
            tell_shortest(failing, &options)
        }
        "write" => {
            let options = Options::parse(rest, &["--seed", "--count", "--out"])?;
            let (seed, count) = (options.number("--seed", 1)?, options.number("--count", 10_000)?);
            tell_written(write::run(&Ours, seed, count as usize), &options)
        }
        "records" => {
            let options = Options::parse(rest, &["--seed", "--count", "--out"])?;
            let (seed, count) = (options.number("--seed", 1)?, options.number("--count", 10_000)?);
            let (tally, failing) = inspected::run(&Ours, seed, count as usize);
            tally.print();
            tell_shortest(failing, &options)
        }
        "largest" => {
            Options::parse(rest, &[])?;
            Ok(if largest::run(&Ours) { ExitCode::SUCCESS } else { ExitCode::FAILURE })
        }
        "bench" => run_bench(&Options::parse(rest, &["--only"])?),
        "vectors" => {
            let (dir, rest) = rest.split_first().ok_or("vectors into which folder?")?;
            write_vectors(dir, &Options::parse(rest, &["--seed"])?)
        }
        "sample" => {
            Options::parse(rest, &[])?;
            write_sample()
        }
        _ => Err(format!("unknown command {name}")),
    }
}

/// Words of the form `--name value`.
struct Options<'a>(Vec<(&'a str, &'a str)>);

impl<'a> Options<'a> {
    fn parse(words: &'a [String], known: &[&str]) -> Result<Self, String> {
        let mut pairs = Vec::new();
        for pair in words.chunks(2) {
            let [name, value] = pair else {
                return Err(format!("{} lacks a value", pair[0]));
            };
            if !known.contains(&name.as_str()) {
                return Err(format!("unknown option {name}"));
            }
            pairs.push((name.as_str(), value.as_str()));
        }
        Ok(Options(pairs))
    }

    fn get(&self, name: &str) -> Option<&'a str> {
        self.0.iter().rev().find(|(n, _)| *n == name).map(|&(_, value)| value)
    }

    fn number(&self, name: &str, default: u64) -> Result<u64, String> {
        let Some(value) = self.get(name) else {
            return Ok(default);
        };
        value.parse().map_err(|_| format!("{name} {value} is no number"))
    }
}

/// Prints the table and writes the failing case, if there is one.
fn tell((tally, failing): run::Outcome, options: &Options) -> Result<ExitCode, String> {
    tally.print();
    let Some((case, what)) = failing else {
        return Ok(ExitCode::SUCCESS);
    };
    let path = options.get("--out").unwrap_or("mismatch.bin");
    case.write(path).map_err(|e| format!("{path}: {e}"))?;
    println!("\nsmallest mismatch found, written to {path}: {}\n{what}", case.describe());
    Ok(ExitCode::FAILURE)
}

/// Writes the failing stream, if there is one.
fn tell_shortest(failing: Option<(Vec<u8>, String)>, options: &Options) -> Result<ExitCode, String> {
    let Some((stream, what)) = failing else {
        return Ok(ExitCode::SUCCESS);
    };
    let path = options.get("--out").unwrap_or("mismatch.bin");
    std::fs::write(path, &stream).map_err(|e| format!("{path}: {e}"))?;
    println!("\nshortest mismatch, written to {path}: stream of {} bytes\n{what}", stream.len());
    Ok(ExitCode::FAILURE)
}

/// Prints the table of written planes and writes the failing case, if there is one.
fn tell_written((tally, failing): write::Outcome, options: &Options) -> Result<ExitCode, String> {
    tally.print();
    let Some((case, what)) = failing else {
        return Ok(ExitCode::SUCCESS);
    };
    let path = options.get("--out").unwrap_or("mismatch.bin");
    std::fs::write(path, vectors::written_case(&case)).map_err(|e| format!("{path}: {e}"))?;
    println!("\nmismatch, written to {path}: {}\n{what}", case.describe());
    Ok(ExitCode::FAILURE)
}

fn run_bench(options: &Options) -> Result<ExitCode, String> {
    let only = match options.get("--only") {
        None => None,
        Some(word) => Some(bench::Part::named(word).ok_or(format!("--only {word} is no part"))?),
    };
    bench::run(&Ours, only);
    Ok(ExitCode::SUCCESS)
}

fn write_vectors(dir: &str, options: &Options) -> Result<ExitCode, String> {
    let (input, output) = vectors::make(options.number("--seed", 1)?);
    for (name, bytes) in [("stdin", input), ("stdout", output.into_bytes())] {
        let path = std::path::Path::new(dir).join(name);
        std::fs::write(&path, bytes).map_err(|e| format!("{}: {e}", path.display()))?;
    }
    Ok(ExitCode::SUCCESS)
}

fn write_sample() -> Result<ExitCode, String> {
    std::io::Write::write_all(&mut std::io::stdout(), &sample::frame_file()).map_err(|e| e.to_string())?;
    Ok(ExitCode::SUCCESS)
}

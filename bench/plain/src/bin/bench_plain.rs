//! Expands each sheet that it is given, again and again for half a second, and prints how many steps a second that makes.

use std::hint::black_box;
use std::path::Path;
use std::process::ExitCode;
use std::time::{Duration, Instant};

use plain::{Areas, Code, LARGEST_ALLOWANCE, LARGEST_LIMITS, Library, Processor};

const ENOUGH: Duration = Duration::from_millis(500);

/// One expansion by a new processor with an empty shelf: its steps, and the time without that of making them.
fn expand_once(source: &[u8]) -> Result<(usize, Duration), String> {
    let mut processor = Processor::make(Code::ascii(), LARGEST_LIMITS).map_err(|refusal| format!("{refusal:?}"))?;
    let mut library = Library::shelf();
    let areas = Areas { store: LARGEST_LIMITS.store, scan: LARGEST_LIMITS.scan, print: LARGEST_LIMITS.print };
    let start = Instant::now();
    let reply = processor.expand(&mut library, LARGEST_ALLOWANCE, black_box(source), areas);
    let time = start.elapsed();
    black_box(reply.text);
    match reply.refusal {
        None => Ok((reply.steps, time)),
        Some(refusal) => Err(format!("refused {}", refusal.number())),
    }
}

/// Prints the steps of one expansion, how many expansions there were, their time, the steps in a second, and the steps in a
/// second of the fastest expansion.
fn measure(path: &str) -> Result<(), String> {
    let source = std::fs::read(path).map_err(|error| error.to_string())?;
    let (steps, mut fastest) = expand_once(&source)?;
    let (mut expansions, mut time) = (0, Duration::ZERO);
    while time < ENOUGH {
        let (_, one) = expand_once(&source)?;
        time += one;
        fastest = fastest.min(one);
        expansions += 1;
    }
    let sheet = Path::new(path).file_stem().unwrap_or_default().to_string_lossy();
    let seconds = time.as_secs_f64();
    let rate = (steps * expansions) as f64 / seconds;
    let fastest = steps as f64 / fastest.as_secs_f64();
    println!("{sheet} steps {steps} expansions {expansions} seconds {seconds:.3} steps/second {rate:.0} fastest {fastest:.0}");
    Ok(())
}

fn main() -> ExitCode {
    for path in std::env::args().skip(1) {
        if let Err(reason) = measure(&path) {
            eprintln!("bench_plain: {path}: {reason}");
            return ExitCode::FAILURE;
        }
    }
    ExitCode::SUCCESS
}

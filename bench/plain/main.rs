//! What heapdbg's `run` does, in plain Rust: the baseline of `bench/ratio.py`.
mod classes;
mod commands;
mod dump;
mod heap;
mod pins;
mod regions;
mod session;
mod text;
mod undo;

use session::{Ending, Session};
use std::os::fd::AsFd;

/// Returns the settings that the words ask for: regions, mutators, steps to keep, time, bytes of an id.
fn settings(words: &[String]) -> Option<[u64; 5]> {
    const NAMES: [&str; 5] = ["--regions", "--mutators", "--keep", "--time", "--ids"];
    const LIMITS: [(u64, u64); 5] = [(1, 256), (1, 16), (1, 65536), (0, u64::MAX), (4, 8)];
    let mut values = [16, 2, 1024, 0, 8];
    let (task, mut rest) = words.split_first()?;
    if task != "run" {
        return None;
    }
    while let [word, others @ ..] = rest {
        let (name, value, after) = match word.split_once('=') {
            Some((name, value)) => (name, value, others),
            None => (word.as_str(), others.first()?.as_str(), &others[1..]),
        };
        let at = NAMES.iter().position(|known| *known == name)?;
        values[at] = value.parse().ok()?;
        if values[at] < LIMITS[at].0 || values[at] > LIMITS[at].1 {
            return None;
        }
        rest = after;
    }
    (values[4] % 4 == 0).then_some(values)
}

fn main() {
    let words: Vec<String> = std::env::args().skip(1).collect();
    let Some([regions, mutators, keep, time, ids]) = settings(&words) else {
        eprintln!("usage: run [--regions N] [--mutators N] [--keep N] [--time T] [--ids S]");
        std::process::exit(2);
    };
    let own = |fd: std::os::fd::BorrowedFd| std::fs::File::from(fd.try_clone_to_owned().unwrap());
    let (input, output) = (own(std::io::stdin().as_fd()), own(std::io::stdout().as_fd()));
    let heap = heap::Heap::new(regions as usize, mutators, keep as usize, ids as usize);
    let ending = Session::new(heap, dump::Writer::new(time, ids as usize), text::Page::new(output)).serve(input);
    let word = match ending {
        Ending::Done => std::process::exit(0),
        Ending::Cut => "cut",
        Ending::Long => "long",
        Ending::Read => "read",
        Ending::Reads => "reads",
        Ending::Write => "write",
    };
    eprintln!("heapdbg: {word}");
    std::process::exit(1);
}

//! How a call is timed: turns of all contenders, of which the best counts.

use std::time::{Duration, Instant};

/// How many turns each contender of a table has.
pub const TURNS: usize = 25;
/// How long a turn is at least: short, so that some turn of each is undisturbed.
const TURN: Duration = Duration::from_millis(4);

/// What is measured: one call, on its own buffers.
pub type Contender = Box<dyn FnMut()>;

/// For each contender in each row, the nanoseconds of a call in its best turn. All take
/// a turn one after the other, so that a slow spell of the machine meets all of them.
pub fn best_of<const L: usize, const N: usize>(
    turns: usize,
    contenders: [[Contender; N]; L],
) -> [[f64; N]; L] {
    let mut contenders =
        contenders.map(|row| row.map(|mut contender| (calls_in_a_turn(&mut contender), contender)));
    let mut best = [[f64::INFINITY; N]; L];
    for _ in 0..turns {
        let all = contenders.iter_mut().flatten();
        for (best, (calls, contender)) in best.iter_mut().flatten().zip(all) {
            let elapsed = time(contender, *calls);
            *best = best.min(elapsed.as_nanos() as f64 / f64::from(*calls));
        }
    }
    best
}

/// How many calls make a turn long enough.
fn calls_in_a_turn(contender: &mut dyn FnMut()) -> u32 {
    let mut calls = 1;
    while time(contender, calls) < TURN {
        calls *= 2;
    }
    calls
}

fn time(contender: &mut dyn FnMut(), calls: u32) -> Duration {
    let start = Instant::now();
    for _ in 0..calls {
        contender();
    }
    start.elapsed()
}

/// The processor's name.
pub fn machine() -> String {
    let about = std::fs::read_to_string("/proc/cpuinfo").unwrap_or_default();
    let name = about
        .lines()
        .find_map(|line| line.strip_prefix("model name")?.split_once(": "));
    name.map_or("unknown".to_string(), |(_, name)| name.to_string())
}

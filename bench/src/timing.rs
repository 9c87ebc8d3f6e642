// Times two ways to answer one question, in turns, and prints what the first takes as a part of what the
// second takes.

use std::time::{Duration, Instant};

/// A value of which the compiler knows nothing from here on, and that counts as used: std::hint::black_box, which the
/// cross compiler of Debian 12 (Rust 1.63) does not have yet.
#[inline(always)]
pub fn bb<T>(x: T) -> T {
    // the empty text is handed the value's address and may read and write any memory
    unsafe { std::arch::asm!("/* {0} */", in(reg) &x, options(nostack, preserves_flags)) };
    x
}

/// Turns of each side in one row.
const ROUNDS: usize = 101;
/// How long one turn should last.
const TURN: Duration = Duration::from_micros(250);

/// Nanoseconds for one call, medians over the turns; and the median of the turns' own ratios, each of two turns side by
/// side in time, so that a busy machine hits both alike.
#[derive(Clone, Copy)]
pub struct Pair {
    pub ours: f64,
    pub theirs: f64,
    pub ratio: f64,
}

fn median(mut of: Vec<f64>) -> f64 {
    of.sort_by(f64::total_cmp);
    of[of.len() / 2]
}

fn turn(f: &mut impl FnMut(), calls: u32) -> f64 {
    let start = Instant::now();
    for _ in 0..calls {
        f();
    }
    start.elapsed().as_nanos() as f64 / calls as f64
}

/// How many calls fill a turn. The first calls do not count: a cold one (under an emulator, one that is being translated)
/// can take as long as a turn, and a turn of few calls would measure the clock.
fn calls(f: &mut impl FnMut()) -> u32 {
    let mut n = 1;
    loop {
        let each = (0..3).map(|_| turn(f, n)).fold(f64::MAX, f64::min);
        if each * n as f64 >= TURN.as_nanos() as f64 / 4.0 {
            return ((TURN.as_nanos() as f64 / each) as u32).max(1);
        }
        n *= 4;
    }
}

/// Both sides in turns, whoever goes first changing each time.
pub fn pair(mut ours: impl FnMut(), mut theirs: impl FnMut()) -> Pair {
    let (a, b) = (calls(&mut ours), calls(&mut theirs));
    let (mut x, mut y, mut r) = (Vec::new(), Vec::new(), Vec::new());
    let started = Instant::now();
    for round in 0..ROUNDS {
        let (mut o, mut t) = (0.0, 0.0);
        for side in 0..2 {
            if (round + side) % 2 == 0 {
                o = turn(&mut ours, a);
            } else {
                t = turn(&mut theirs, b);
            }
        }
        x.push(o);
        y.push(t);
        r.push(o / t);
        if round >= 10 && started.elapsed() > Duration::from_secs(1) {
            break;
        }
    }
    Pair { ours: median(x), theirs: median(y), ratio: median(r) }
}

/// Each side once: for what takes seconds.
pub fn once(mut ours: impl FnMut(), mut theirs: impl FnMut()) -> Pair {
    let a = median((0..5).map(|_| turn(&mut ours, 1)).collect());
    let b = turn(&mut theirs, 1);
    Pair { ours: a, theirs: b, ratio: a / b }
}

/// Of two ways to do the Rust's side, the one that is harder to beat.
pub fn harder(a: Pair, b: Pair) -> Pair {
    if a.ratio < b.ratio {
        b
    } else {
        a
    }
}

/// The table: rows as they are measured, and those above their bar.
pub struct Table {
    pub above: Vec<String>,
}

impl Table {
    pub fn heading(&self, text: &str) {
        println!("\n{text:<58} {:>11} {:>11} {:>7} {:>5}", "ours ns", "Rust ns", "ratio", "bar");
    }

    pub fn row(&mut self, name: &str, p: Pair, bar: f64) {
        let r = p.ratio;
        let mark = if r > bar { "  ABOVE" } else { "" };
        println!("{name:<58} {:>11.1} {:>11.1} {r:>7.3} {bar:>5.1}{mark}", p.ours, p.theirs);
        if r > bar {
            self.above.push(format!("{name}: {r:.3} > {bar:.1}"));
        }
    }

    /// A row with no bar: the two sides list different things, or it is there to be read.
    pub fn note(&self, name: &str, p: Pair) {
        println!("{name:<58} {:>11.1} {:>11.1} {:>7.3} {:>5}", p.ours, p.theirs, p.ratio, "-");
    }
}

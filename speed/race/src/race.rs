//! Contestants that run in turns, and the rows that come of it.
use std::time::Instant;

/// How long a row is run.
#[derive(Clone, Copy, PartialEq)]
pub enum Mode {
    /// At least so many rounds, and at least so many seconds.
    Timed { rounds: usize, seconds: f64 },
    /// One round, between two marks that a counting emulator sees.
    Counted,
}

/// What a row stands for: its table, its name, the size of a message and of a piece, and what one round does.
pub struct Row<'a> {
    pub table: &'a str,
    pub name: &'a str,
    pub size: usize,
    pub piece: usize,
    pub units: u64,
    pub bytes: u64,
}

pub struct Race {
    pub mode: Mode,
    marks: usize,
}

extern "C" {
    fn write(descriptor: i32, bytes: *const u8, n: usize) -> isize;
}

/// A write to a descriptor that is not open. The counting plugin of the emulator sees it, with its number; nothing else does.
fn mark(number: usize) {
    unsafe { write(200, std::ptr::null(), number) };
}

impl Race {
    pub fn new(mode: Mode) -> Self {
        Race { mode, marks: 0 }
    }

    pub fn is_counted(&self) -> bool {
        self.mode == Mode::Counted
    }

    /// Runs the contestants in turns and writes the row: for each its best seconds, or the number of its mark.
    pub fn run(&mut self, row: &Row, who: &mut [(&str, &mut dyn FnMut())]) {
        print!("row\t{}\t{}\t{}\t{}\t{}\t{}", row.table, row.name, row.size, row.piece, row.units, row.bytes);
        match self.mode {
            Mode::Timed { rounds, seconds } => {
                let best = timed(rounds, seconds, who);
                for ((name, _), best) in who.iter().zip(best) {
                    print!("\t{name}={best:.9}");
                }
            }
            Mode::Counted => {
                for (name, run) in who {
                    self.marks += 1;
                    mark(0);
                    run();
                    mark(self.marks);
                    print!("\t{name}={}", self.marks);
                }
            }
        }
        println!();
    }
}

/// The best of each. Rounds go forth and back, so that the first and the last contestant run behind themselves every other time, and neither
/// has to bear always what another leaves in the caches: the crate comes first and we last.
fn timed(rounds: usize, seconds: f64, who: &mut [(&str, &mut dyn FnMut())]) -> Vec<f64> {
    let mut best = vec![f64::MAX; who.len()];
    let mut order: Vec<usize> = (0..who.len()).collect();
    let began = Instant::now();
    let mut round = 0;
    while round < rounds || began.elapsed().as_secs_f64() < seconds {
        for &k in &order {
            let start = Instant::now();
            who[k].1();
            best[k] = best[k].min(start.elapsed().as_secs_f64());
        }
        order.reverse();
        round += 1;
    }
    best
}

//! Measures the proved calls beside the crate's on the same bytes, and writes a line for each row (docs/SPEED.md).
//!
//!   race full [TABLE]...     the tables: leaf, read, send, take, list, growth; all where none is named
//!   race quick [TABLE]...    a few small rows, once each, that show no more than that everything runs
//!   race count [TABLE]...    one round of each row that is counted, for an emulator with a counting plugin
mod ours;
mod race;
mod rows;
mod streams;
mod theirs;

/// The crate's own masking, which it keeps to itself.
#[path = "../../tungstenite/src/protocol/frame/mask.rs"]
#[allow(dead_code)]
mod mask;

use race::{Mode, Race};

fn main() {
    let mut words = std::env::args().skip(1);
    let (mode, quick) = match words.next().as_deref() {
        Some("full") => (Mode::Timed { rounds: 5, seconds: 0.4 }, false),
        Some("quick") => (Mode::Timed { rounds: 1, seconds: 0.0 }, true),
        Some("count") => (Mode::Counted, false),
        _ => {
            eprintln!("race: full, quick or count");
            std::process::exit(2)
        }
    };
    let tables: Vec<String> = words.collect();
    let mut race = Race::new(mode);
    for (name, run) in rows::TABLES {
        if tables.is_empty() || tables.iter().any(|table| table == name) {
            run(&mut race, quick);
        }
    }
}

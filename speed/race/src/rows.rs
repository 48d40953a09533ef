//! The tables. Every row first holds what the two sides give to each other and to what it should be.
use crate::race::{Race, Row};
use crate::streams::{self, Content, Kind, Numbers, Session};
use crate::ours::Compiled::{Alone, Shared};
use crate::{mask, ours, theirs};
use std::hint::black_box;
use tungstenite::{Bytes, Message};

/// The tables by name, each with what measures its rows; `true` is for a quick run.
pub const TABLES: [(&str, fn(&mut Race, bool)); 6] =
    [("leaf", leaves), ("read", reads), ("send", sends), ("take", takes), ("list", listings), ("growth", growth)];

const MIB: usize = 1 << 20;

/// Payload bytes of one round.
const SMALL: usize = MIB;
const LARGE: usize = 8 * MIB;

/// Frames of one round, at most, unless one message has more.
const FRAMES: usize = 200_000;

/// The largest frame that Harrowlink allows.
const MOST_FRAME: usize = 16 * MIB;

const SIZES: [usize; 5] = [5, 125, 1000, 65536, 16 * MIB];
const PIECES: [usize; 4] = [1, 16, 1460, 65536];

/// From this size on the crate is tried with its usual read buffer too. Below, it would clear 128 KiB for each piece.
const USUAL_FROM: usize = 1460;

/// What one write to a network takes, for the rows of `take`.
const WRITE: usize = 1460;

/// The store for lines that `replay` has.
const LINES: usize = 131_200;

const PLAIN: Kind = Kind { content: Content::Binary, masked: false, fragments: 1 };

const KINDS: [(&str, Kind); 5] = [
    ("binary to a client", PLAIN),
    ("binary, masked, to a server", Kind { masked: true, ..PLAIN }),
    ("text, ASCII, to a client", Kind { content: Content::Ascii, ..PLAIN }),
    ("text, mixed, to a client", Kind { content: Content::Mixed, ..PLAIN }),
    ("binary, 64 fragments, to a client", Kind { fragments: 64, ..PLAIN }),
];

/// Keeps the compiler from leaving a call out whose result nobody wants.
fn done<T>(result: T) {
    black_box(result);
}

fn messages_of(size: usize, fragments: usize) -> u64 {
    let bytes = if size > 1000 { LARGE } else { SMALL };
    (bytes / size).min(FRAMES / fragments).max(1) as u64
}

fn payload_of(message: &Message) -> &[u8] {
    match message {
        Message::Text(text) => text.as_bytes(),
        Message::Binary(bytes) => bytes,
        other => panic!("an event that was not sent: {other:?}"),
    }
}

/// Both sides read the session, and give the same messages.
fn agree_on(session: &Session, client: bool, piece: usize, store: &mut [u8]) {
    let wanted = ours::Tally { events: session.messages, bytes: session.bytes };
    assert_eq!(ours::read(Shared, client, &session.stream, piece, store), wanted);
    assert_eq!(ours::read(Alone, client, &session.stream, piece, store), wanted);
    assert!(store[..session.last.len()] == session.last);
    let (tally, last) = theirs::read(client, &session.stream, piece, piece);
    assert_eq!(tally, wanted);
    assert!(payload_of(&last.expect("a message")) == session.last);
}

/// A row of a session in pieces.
fn read_row(race: &mut Race, table: &str, name: &str, session: &Session, client: bool, size: usize, piece: usize, store: &mut [u8]) {
    agree_on(session, client, piece, store);
    let row = Row { table, name, size, piece, units: session.messages, bytes: session.bytes };
    let stream = &session.stream[..];
    let mut fitting = || done(theirs::read(client, black_box(stream), piece, piece));
    let mut usual = || done(theirs::read(client, black_box(stream), piece, theirs::usual_buffer()));
    let mut own = || done(ours::read(Alone, client, black_box(stream), piece, store));
    if piece < USUAL_FROM {
        race.run(&row, &mut [("crate", &mut fitting), ("ours", &mut own)]);
    } else {
        race.run(&row, &mut [("crate", &mut fitting), ("usual", &mut usual), ("ours", &mut own)]);
    }
}

fn reads(race: &mut Race, quick: bool) {
    let mut store = vec![1u8; 16 * MIB];
    for (name, kind) in KINDS {
        for size in SIZES {
            if quick && size > 1000 {
                continue;
            }
            let session = streams::session(kind, size, messages_of(size, kind.fragments));
            for piece in PIECES {
                // Counting is for the code and not for the pieces, and small pieces take an emulator long.
                if piece == 65536 || !(quick || race.is_counted()) {
                    read_row(race, "read", name, &session, !kind.masked, size, piece, &mut store);
                }
            }
        }
    }
}

fn leaves(race: &mut Race, quick: bool) {
    let size = if quick || race.is_counted() { MIB } else { 16 * MIB };
    let mut numbers = Numbers::new();
    let bytes = streams::payload(Content::Binary, size, &mut numbers);
    unmasks(race, &bytes, 1);
    unmasks(race, &bytes[..65536], 16);
    for (name, content) in [("UTF-8, ASCII", Content::Ascii), ("UTF-8, mixed", Content::Mixed)] {
        let text = streams::payload(content, size, &mut numbers);
        race.run(
            &Row { table: "leaf", name, size, piece: size, units: 1, bytes: size as u64 },
            &mut [
                ("crate", &mut || assert!(std::str::from_utf8(black_box(&text)).is_ok())),
                ("ours", &mut || assert!(ours::utf8(black_box(&text)))),
            ],
        );
    }
}

/// A piece unmasked so many times in a round, by our masking and by single bytes; and copied, which needs the memory no less. All lay it
/// over the same store.
fn unmasks(race: &mut Race, piece: &[u8], times: u64) {
    let key = [0x37, 0xfa, 0x21, 0x3d];
    let (size, number) = (piece.len(), u32::from_be_bytes(key));
    let copy = |store: &mut [u8]| store.copy_from_slice(black_box(piece));
    let copy_and_mask = |store: &mut [u8]| {
        copy(store);
        mask::apply_mask(black_box(store), black_box(key));
    };
    let ways: [(&str, fn(&[u8], &mut [u8], u32) -> bool); 2] = [("unmask", ours::mask), ("unmask, byte by byte", ours::mask_bytes)];
    for (name, way) in ways {
        let (mut one, mut two) = (vec![1u8; size], vec![1u8; size]);
        copy_and_mask(&mut one);
        assert!(way(piece, &mut two, number) && one == two);
        let store = std::cell::RefCell::new(one);
        drop(two);
        let repeat = |run: &dyn Fn(&mut [u8])| (0..times).for_each(|_| run(black_box(&mut store.borrow_mut()[..])));
        race.run(
            &Row { table: "leaf", name, size, piece: size, units: times, bytes: times * size as u64 },
            &mut [
                ("crate", &mut || repeat(&copy_and_mask)),
                ("copy", &mut || repeat(&copy)),
                ("ours", &mut || repeat(&|store| assert!(way(black_box(piece), store, number)))),
            ],
        );
    }
}

fn sends(race: &mut Race, quick: bool) {
    let mut output = vec![1u8; 16 * MIB + 256];
    for (name, content, client) in [
        ("binary by a server", Content::Binary, false),
        ("binary, masked, by a client", Content::Binary, true),
        ("text, ASCII, by a server", Content::Ascii, false),
        ("text, mixed, by a server", Content::Mixed, false),
    ] {
        for size in SIZES {
            if quick && size > 1000 {
                continue;
            }
            let (times, text) = (messages_of(size, 1), content.is_text());
            let payloads = Bytes::from(streams::payloads(content, size, times));
            let row = Row { table: "send", name, size, piece: size, units: times, bytes: times * size as u64 };
            let wanted = theirs::send(client, text, &payloads, size);
            for how in [Alone, Shared] {
                assert_eq!(ours::send(how, client, text, &payloads, size, &mut output), wanted);
            }
            let mut other = output.clone();
            race.run(
                &row,
                &mut [
                    ("crate", &mut || done(theirs::send(client, text, black_box(&payloads), size))),
                    ("shared", &mut || done(ours::send(Shared, client, text, black_box(&payloads), size, &mut other))),
                    ("ours", &mut || done(ours::send(Alone, client, text, black_box(&payloads), size, &mut output))),
                ],
            );
        }
    }
}

fn takes(race: &mut Race, quick: bool) {
    for held in [65536, MIB] {
        if quick && held > 65536 {
            continue;
        }
        let payload = Bytes::from(streams::payload(Content::Binary, held, &mut Numbers::new()));
        let mut output = vec![1u8; held + 256];
        let takes = ours::take(&payload, WRITE, &mut output);
        assert_eq!(takes, theirs::take(&payload, WRITE));
        let row = Row { table: "take", name: "take", size: held, piece: WRITE, units: takes, bytes: held as u64 };
        race.run(
            &row,
            &mut [
                ("crate", &mut || done(theirs::take(black_box(&payload), WRITE))),
                ("ours", &mut || done(ours::take(black_box(&payload), WRITE, &mut output))),
            ],
        );
    }
}

fn listings(race: &mut Race, quick: bool) {
    for size in [125, 1000, 32768] {
        let messages = (if quick || race.is_counted() { SMALL } else { LARGE } / size) as u64;
        let capture = streams::capture(size, messages);
        // The whole listing has room here, and so each of its bytes is looked at.
        let mut whole = vec![1u8; capture.listing.len() + LINES];
        assert_eq!(ours::list(&capture.file, &mut whole), capture.listing.len() as u64);
        assert!(whole[..capture.listing.len()] == capture.listing);
        let (mut lines, mut hex) = (vec![1u8; LINES], vec![1u8; 2 * size]);
        let row = Row { table: "list", name: "list", size, piece: 65535, units: messages, bytes: capture.shown.len() as u64 };
        race.run(
            &row,
            &mut [
                ("c", &mut || {
                    for payload in black_box(&capture.shown).chunks(size) {
                        ours::plain_hex(payload, black_box(&mut hex));
                    }
                }),
                ("ours", &mut || done(ours::list(black_box(&capture.file), &mut lines))),
            ],
        );
    }
}

/// How cost grows. That takes many rounds, and is not for a quick run nor for an emulator.
fn growth(race: &mut Race, quick: bool) {
    if !quick && !race.is_counted() {
        by_size(race);
        by_fragments(race);
        by_pieces(race);
    }
}

/// How the cost of a message grows with its size: 64 MiB in messages of each size, beside a plain copy of the same payloads.
fn by_size(race: &mut Race) {
    let mut store = vec![1u8; 64 * MIB];
    let mut copied = vec![1u8; 64 * MIB];
    for (name, kind) in [KINDS[0], KINDS[1], KINDS[3]] {
        for size in [64 << 10, 256 << 10, MIB, 4 * MIB, 16 * MIB, 64 * MIB] {
            let fragments = size.div_ceil(MOST_FRAME);
            let session = streams::session(Kind { fragments, ..kind }, size, (64 * MIB / size) as u64);
            let client = !kind.masked;
            agree_on(&session, client, 65536, &mut store);
            let row = Row { table: "by size", name, size, piece: 65536, units: session.messages, bytes: session.bytes };
            race.run(
                &row,
                &mut [
                    ("crate", &mut || done(theirs::read(client, black_box(&session.stream), 65536, 65536))),
                    ("copy", &mut || {
                        for payload in black_box(&session.stream).chunks(size) {
                            black_box(&mut copied)[..payload.len()].copy_from_slice(payload);
                        }
                    }),
                    ("ours", &mut || done(ours::read(Alone, client, black_box(&session.stream), 65536, &mut store))),
                ],
            );
        }
    }
}

/// How it grows with the fragments of a message of 4 MiB.
fn by_fragments(race: &mut Race) {
    let mut store = vec![1u8; 4 * MIB];
    for fragments in [1, 10, 100, 1000, 10_000] {
        let session = streams::session(Kind { fragments, ..PLAIN }, 4 * MIB, 1);
        read_row(race, "by fragments", &fragments.to_string(), &session, true, 4 * MIB, 65536, &mut store);
    }
}

/// And with the pieces of a session: eight messages of 1 MiB. Our loop is compiled alone, and with the others.
fn by_pieces(race: &mut Race) {
    let (mut store, mut other) = (vec![1u8; MIB], vec![1u8; MIB]);
    let session = streams::session(PLAIN, MIB, 8);
    let stream = &session.stream[..];
    for piece in [1, 4, 16, 64, 256, 1460, 4096, 16384, 65536] {
        agree_on(&session, true, piece, &mut store);
        let row = Row { table: "by pieces", name: "binary to a client", size: MIB, piece, units: session.messages, bytes: session.bytes };
        race.run(
            &row,
            &mut [
                ("crate", &mut || done(theirs::read(true, black_box(stream), piece, piece))),
                ("shared", &mut || done(ours::read(Shared, true, black_box(stream), piece, &mut other))),
                ("ours", &mut || done(ours::read(Alone, true, black_box(stream), piece, &mut store))),
            ],
        );
    }
}

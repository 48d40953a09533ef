//! The crate, unchanged, over a stream in memory.
use crate::ours::Tally;
use std::io::{self, Read, Write};
use tungstenite::protocol::{Role, WebSocketConfig};
use tungstenite::{Bytes, Error, Message, Utf8Bytes, WebSocket};

/// The largest that Harrowlink allows.
const MOST_FRAME: usize = 16 << 20;
const MOST_MESSAGE: usize = 64 << 20;

/// A stream that has a piece of its bytes at a time, as a socket that does not block, and takes at most so many bytes at a time, which it
/// only counts.
#[derive(Debug)]
struct Stream<'a> {
    input: &'a [u8],
    at: usize,
    end: usize,
    takes: usize,
    taken: u64,
    writes: u64,
}

impl<'a> Stream<'a> {
    fn new(input: &'a [u8], takes: usize) -> Self {
        Stream { input, at: 0, end: 0, takes, taken: 0, writes: 0 }
    }

    /// The next piece has come. False: there is none.
    fn comes(&mut self, piece: usize) -> bool {
        self.end = (self.end + piece).min(self.input.len());
        self.at < self.end
    }
}

impl Read for Stream<'_> {
    fn read(&mut self, buf: &mut [u8]) -> io::Result<usize> {
        let n = (self.end - self.at).min(buf.len());
        if n == 0 {
            return Err(io::ErrorKind::WouldBlock.into());
        }
        buf[..n].copy_from_slice(&self.input[self.at..self.at + n]);
        self.at += n;
        Ok(n)
    }
}

impl Write for Stream<'_> {
    fn write(&mut self, buf: &[u8]) -> io::Result<usize> {
        let n = buf.len().min(self.takes);
        self.taken += n as u64;
        self.writes += 1;
        Ok(n)
    }
    fn flush(&mut self) -> io::Result<()> {
        Ok(())
    }
}

fn socket(client: bool, stream: Stream<'_>, read_buffer: usize) -> WebSocket<Stream<'_>> {
    let role = if client { Role::Client } else { Role::Server };
    let config = WebSocketConfig::default()
        .read_buffer_size(read_buffer)
        .max_frame_size(Some(MOST_FRAME))
        .max_message_size(Some(MOST_MESSAGE));
    WebSocket::from_raw_socket(stream, role, Some(config))
}

/// The size that the crate's read buffer has where nobody says another.
pub fn usual_buffer() -> usize {
    WebSocketConfig::default().read_buffer_size
}

/// Reads a stream to its end, each piece until it has no message more; gives what was read, and the last message.
pub fn read(client: bool, stream: &[u8], piece: usize, read_buffer: usize) -> (Tally, Option<Message>) {
    let mut ws = socket(client, Stream::new(stream, usize::MAX), read_buffer);
    let mut tally = Tally { events: 0, bytes: 0 };
    let mut last = None;
    while ws.get_mut().comes(piece) {
        loop {
            match ws.read() {
                Ok(message) => {
                    tally.events += 1;
                    tally.bytes += message.len() as u64;
                    last = Some(message);
                }
                Err(Error::Io(e)) if e.kind() == io::ErrorKind::WouldBlock => break,
                Err(e) => panic!("the crate refuses the stream: {e}"),
            }
        }
    }
    (tally, last)
}

/// A text has to be checked before it can be a message of the crate's, and so that is part of sending it.
fn message(text: bool, payload: Bytes) -> Message {
    if text {
        return Message::Text(Utf8Bytes::try_from(payload).expect("a text"));
    }
    Message::Binary(payload)
}

/// Sends payloads of one size that stand one behind the other, each flushed; gives the bytes that were put out.
pub fn send(client: bool, text: bool, payloads: &Bytes, size: usize) -> u64 {
    let mut ws = socket(client, Stream::new(&[], usize::MAX), usual_buffer());
    for at in (0..payloads.len()).step_by(size) {
        ws.send(message(text, payloads.slice(at..at + size))).expect("the crate sends");
    }
    ws.get_ref().taken
}

/// Sends a payload into a stream that takes so many bytes at a time; gives the number of writes.
pub fn take(payload: &Bytes, size: usize) -> u64 {
    let mut ws = socket(false, Stream::new(&[], size), usual_buffer());
    ws.send(message(false, payload.clone())).expect("the crate sends");
    ws.get_ref().writes
}

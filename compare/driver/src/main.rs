//! Runs a script of calls through the unchanged protocol core of tungstenite and answers a line for each, in the language of
//! `./harrowlink drive`: of it what the crate can answer. docs/COMPARE.md describes it.
//!
//! Words: session, masks, until refused, read, all, text, binary, ping, pong, close, waits, state. Anything else is `bad line N`, and the
//! program ends with status 2.
//!
//! Switches, for behaviour off the domain of the comparison:
//!   --room N    the crate's write buffer holds at most N bytes and is written when it is to be flushed (1 at least)
//!   --blocked   the stream takes no byte (with --room)
//!   --close     `close` is the crate's own `close` in place of `write`
use std::fmt::Write as _;
use std::io::{self, BufRead, Read, Write};
use std::panic::{catch_unwind, AssertUnwindSafe};
use std::process::exit;
use tungstenite::error::{CapacityError, ProtocolError};
use tungstenite::protocol::{frame::coding::CloseCode, CloseFrame, Role, WebSocketConfig};
use tungstenite::{Bytes, Error, Message, Utf8Bytes, WebSocket};

/// The stream below the crate. It gives one byte for each `Read::read`: the crate asks only while what it has does not decide, so it
/// never holds a byte that it did not need, and the bytes drawn in a call are document 01's bytes taken.
struct Stream {
    input: Vec<u8>,
    at: usize,
    end: bool,
    drawn: u64,
    output: Vec<u8>,
    blocked: bool,
}

impl std::fmt::Debug for Stream {
    fn fmt(&self, f: &mut std::fmt::Formatter<'_>) -> std::fmt::Result {
        f.write_str("Stream")
    }
}

impl Read for Stream {
    fn read(&mut self, buf: &mut [u8]) -> io::Result<usize> {
        // Asked for nothing: the crate does so only when it is read again after number 4.
        if buf.is_empty() {
            return Ok(0);
        }
        if self.at == self.input.len() {
            return if self.end { Ok(0) } else { Err(io::ErrorKind::WouldBlock.into()) };
        }
        buf[0] = self.input[self.at];
        self.at += 1;
        self.drawn += 1;
        Ok(1)
    }
}

impl Write for Stream {
    fn write(&mut self, buf: &[u8]) -> io::Result<usize> {
        if self.blocked {
            return Err(io::ErrorKind::WouldBlock.into());
        }
        self.output.extend_from_slice(buf);
        Ok(buf.len())
    }
    fn flush(&mut self) -> io::Result<()> {
        Ok(())
    }
}

/// HEX of the language: lower-case, in pairs, `-` for nothing.
fn unhex(word: &str) -> Option<Vec<u8>> {
    if word == "-" {
        return Some(Vec::new());
    }
    let digit = |c: u8| match c {
        b'0'..=b'9' => Some(c - b'0'),
        b'a'..=b'f' => Some(c - b'a' + 10),
        _ => None,
    };
    if word.is_empty() || word.len() % 2 != 0 {
        return None;
    }
    word.as_bytes().chunks(2).map(|p| Some(digit(p[0])? << 4 | digit(p[1])?)).collect()
}

/// `N HEX`, or `0` alone.
fn counted(out: &mut String, bytes: &[u8]) {
    write!(out, "{}", bytes.len()).unwrap();
    if !bytes.is_empty() {
        out.push(' ');
        for b in bytes {
            for n in [b >> 4, b & 15] {
                out.push(char::from_digit(n.into(), 16).unwrap());
            }
        }
    }
}

/// The word behind a field's name in the derived Debug form: private fields are seen only so. What the peer sent stands in it too, as
/// `in_buffer`, so the search begins behind that.
fn field(ws: &WebSocket<Stream>, name: &str) -> String {
    let all = format!("{ws:?}");
    let from = all.find(" in_buf_max_read: ").expect("in_buf_max_read");
    let at = all[from..].find(name).expect("the field") + from + name.len();
    all[at..].chars().take_while(|c| c.is_alphanumeric()).collect()
}

/// Document 01's number of an error, or the error's own name where it has none.
fn number(error: &Error, ws: &WebSocket<Stream>) -> String {
    use ProtocolError::*;
    let n = match error {
        Error::AlreadyClosed => 2,
        Error::Utf8(_) => 12,
        // One error for two numbers: after the frame limit the header still stands in the codec, after the message limit it was taken.
        Error::Capacity(CapacityError::MessageTooLong { .. }) if field(ws, " header: ") == "Some" => 4,
        Error::Capacity(CapacityError::MessageTooLong { .. }) => 15,
        Error::WriteBufferFull(_) => 19,
        Error::Protocol(InvalidOpcode(_)) => 3,
        Error::Protocol(UnmaskedFrameFromClient) => 5,
        Error::Protocol(ReceivedAfterClosing) => 6,
        Error::Protocol(NonZeroReservedBits) => 7,
        Error::Protocol(MaskedFrameFromServer) => 8,
        Error::Protocol(FragmentedControlFrame) => 9,
        Error::Protocol(ControlFrameTooBig) => 10,
        Error::Protocol(InvalidCloseSequence) => 11,
        Error::Protocol(UnexpectedContinueFrame) => 13,
        Error::Protocol(ExpectedFragment(_)) => 14,
        Error::Protocol(ResetWithoutClosingHandshake) => 16,
        Error::Protocol(SendAfterClosing) => 17,
        other => return format!("{other:?}"),
    };
    n.to_string()
}

struct Run {
    ws: Option<WebSocket<Stream>>,
    until_refused: bool,
    refused: bool,
    masks: Vec<[u8; 4]>,
    room: Option<usize>,
    blocked: bool,
    close: bool,
}

impl Run {
    fn session(&mut self, words: &[&str]) -> Option<()> {
        let role = match words[1] {
            "client" => Role::Client,
            "server" => Role::Server,
            _ => return None,
        };
        let unmasked = match words[4] {
            "0" => false,
            "1" => true,
            _ => return None,
        };
        let mut config = WebSocketConfig::default()
            .read_buffer_size(0)
            .write_buffer_size(0)
            .max_frame_size(Some(words[2].parse().ok()?))
            .max_message_size(Some(words[3].parse().ok()?))
            .accept_unmasked_frames(unmasked);
        if let Some(room) = self.room {
            config = config.write_buffer_size(room - 1).max_write_buffer_size(room);
        }
        let stream =
            Stream { input: Vec::new(), at: 0, end: false, drawn: 0, output: Vec::new(), blocked: self.blocked };
        self.ws = Some(WebSocket::from_raw_socket(stream, role, Some(config)));
        self.refused = false;
        self.masks.clear();
        Some(())
    }

    /// One read; whether reading on makes sense.
    fn read(&mut self, out: &mut String) -> bool {
        rand::lay_masks(&self.masks);
        self.masks.clear();
        let ws = self.ws.as_mut().expect("a session");
        let answer = ws.read();
        let mut on = false;
        match &answer {
            Ok(message) => {
                on = true;
                event(message, out)
            }
            Err(Error::ConnectionClosed) => out.push_str("closed"),
            Err(Error::Io(e)) if e.kind() == io::ErrorKind::WouldBlock => out.push_str("more"),
            Err(e) => {
                self.refused = true;
                write!(out, "refused {}", number(e, ws)).unwrap()
            }
        }
        let stream = ws.get_mut();
        write!(out, " taken {}", stream.drawn).unwrap();
        stream.drawn = 0;
        put(stream, out);
        on
    }

    fn send(&mut self, message: Message, out: &mut String) {
        rand::lay_masks(&self.masks);
        self.masks.clear();
        let ws = self.ws.as_mut().expect("a session");
        let answer = match message {
            Message::Close(close) if self.close => ws.close(close),
            message => ws.write(message),
        };
        match answer {
            Ok(()) => out.push_str("ok"),
            // With --blocked: the frame stands in the write buffer.
            Err(Error::Io(e)) if e.kind() == io::ErrorKind::WouldBlock => out.push_str("ok"),
            // With --close.
            Err(Error::ConnectionClosed) => out.push_str("closed"),
            Err(e) => {
                self.refused = true;
                write!(out, "refused {}", number(&e, ws)).unwrap()
            }
        }
        put(ws.get_mut(), out);
    }

    /// Answers a line of the script. None: the line is bad.
    fn line(&mut self, line: &str, out: &mut String) -> Option<()> {
        if line.starts_with('#') {
            return Some(());
        }
        let words: Vec<&str> = line.split(' ').collect();
        match (words[0], words.len()) {
            ("until", 2) if words[1] == "refused" => {
                self.until_refused = true;
                return Some(());
            }
            ("session", 5) => {
                self.session(&words)?;
                out.push_str(line);
                out.push('\n');
                return Some(());
            }
            _ => {}
        }
        self.ws.as_ref()?;
        let skip = self.until_refused && self.refused;
        match (words[0], words.len()) {
            ("masks", 2) => {
                let masks = unhex(words[1]).filter(|m| m.len() == 8)?;
                self.masks = masks.chunks(4).map(|m| m.try_into().unwrap()).collect();
                return Some(());
            }
            ("read" | "all", 3) => {
                let bytes = unhex(words[1])?;
                let end = match words[2] {
                    "0" => false,
                    "1" => true,
                    _ => return None,
                };
                if !skip {
                    let stream = self.ws.as_mut()?.get_mut();
                    stream.input.drain(..stream.at);
                    stream.at = 0;
                    stream.input.extend(bytes);
                    stream.end = end;
                    while self.read(out) && words[0] == "all" {}
                    return Some(());
                }
            }
            ("text" | "binary" | "ping" | "pong" | "close", 2) => {
                let bytes = unhex(words[1])?;
                let message = match words[0] {
                    // Text that is not UTF-8 can't be said to the crate.
                    "text" => Message::Text(Utf8Bytes::try_from(bytes).ok()?),
                    "binary" => Message::Binary(Bytes::from(bytes)),
                    "ping" => Message::Ping(Bytes::from(bytes)),
                    "pong" => Message::Pong(Bytes::from(bytes)),
                    _ if bytes.is_empty() => Message::Close(None),
                    _ if bytes.len() == 1 => return None,
                    _ => Message::Close(Some(CloseFrame {
                        code: CloseCode::from(u16::from_be_bytes([bytes[0], bytes[1]])),
                        reason: Utf8Bytes::try_from(bytes[2..].to_vec()).ok()?,
                    })),
                };
                if !skip {
                    self.send(message, out);
                    return Some(());
                }
            }
            // What shows and changes nothing is no call: it is answered behind a refusal too.
            ("waits", 1) => {
                let waits = field(self.ws.as_ref()?, " additional_send: ") == "Some";
                writeln!(out, "waits {}", u8::from(waits)).unwrap();
                return Some(());
            }
            ("state", 1) => {
                writeln!(out, "state {}", field(self.ws.as_ref()?, " state: ")).unwrap();
                return Some(());
            }
            _ => return None,
        }
        out.push_str("-\n");
        Some(())
    }
}

fn event(message: &Message, out: &mut String) {
    match message {
        Message::Text(t) => {
            out.push_str("text ");
            counted(out, t.as_bytes())
        }
        Message::Binary(b) => {
            out.push_str("binary ");
            counted(out, b)
        }
        Message::Ping(b) => {
            out.push_str("ping ");
            counted(out, b)
        }
        Message::Pong(b) => {
            out.push_str("pong ");
            counted(out, b)
        }
        Message::Close(close) => {
            let mut payload = Vec::new();
            if let Some(close) = close {
                payload.extend(u16::from(close.code).to_be_bytes());
                payload.extend(close.reason.as_bytes());
            }
            out.push_str("close ");
            counted(out, &payload)
        }
        Message::Frame(_) => out.push_str("frame"),
    }
}

/// The output is taken after every call.
fn put(stream: &mut Stream, out: &mut String) {
    if !stream.output.is_empty() {
        out.push_str(" put ");
        counted(out, &stream.output);
        stream.output.clear();
    }
    out.push('\n');
}

fn main() {
    let mut run = Run {
        ws: None,
        until_refused: false,
        refused: false,
        masks: Vec::new(),
        room: None,
        blocked: false,
        close: false,
    };
    let mut words = std::env::args().skip(1);
    while let Some(word) = words.next() {
        match word.as_str() {
            "--room" => run.room = words.next().and_then(|n| n.parse().ok()).filter(|n| *n > 0),
            "--blocked" => run.blocked = true,
            "--close" => run.close = true,
            _ => {
                eprintln!("driver: no switch '{word}'");
                exit(2)
            }
        }
    }
    // A panic of the crate is an answer like others; what it says about itself is not.
    std::panic::set_hook(Box::new(|_| {}));
    let mut stdout = io::BufWriter::with_capacity(1 << 16, io::stdout().lock());
    let mut out = String::new();
    for (at, line) in io::stdin().lock().lines().enumerate() {
        let line = line.expect("standard input");
        out.clear();
        let done = catch_unwind(AssertUnwindSafe(|| run.line(&line, &mut out)));
        match done {
            Ok(Some(())) => stdout.write_all(out.as_bytes()).expect("standard output"),
            Ok(None) => {
                writeln!(stdout, "bad line {}", at + 1).expect("standard output");
                stdout.flush().expect("standard output");
                exit(2)
            }
            Err(_) => {
                run.refused = true;
                writeln!(stdout, "panic").expect("standard output")
            }
        }
    }
}

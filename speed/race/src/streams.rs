//! The bytes that both sides are given. They are the same in every run.

const ASCII: &str = "The |quick |brown |fox |jumps |over |the |lazy |dog, |1234567890. |Catalogue |record |number |17; |shelf |mark |QE 77.\n";
const MIXED: &str = "Ελληνικά |και |日本語の|テキスト、|混在した|文章です。|Η |γρήγορη |καφέ |αλεπού |πηδάει. |吾輩は|猫である。|名前は|まだ無い。\n";

/// What a message holds.
#[derive(Clone, Copy, PartialEq)]
pub enum Content {
    Binary,
    Ascii,
    Mixed,
}

impl Content {
    pub fn is_text(self) -> bool {
        self != Content::Binary
    }
}

/// Numbers by xorshift, always from the same start.
pub struct Numbers(u64);

impl Numbers {
    pub fn new() -> Self {
        Numbers(88172645463325252)
    }
    fn next(&mut self) -> u64 {
        self.0 ^= self.0 << 13;
        self.0 ^= self.0 >> 7;
        self.0 ^= self.0 << 17;
        self.0
    }
    fn below(&mut self, n: usize) -> usize {
        (self.next() % n as u64) as usize
    }
}

/// So many bytes of text: the sample's words in random order, and a space for each character that does not fit.
fn text(sample: &str, n: usize, numbers: &mut Numbers) -> Vec<u8> {
    let words: Vec<&str> = sample.split('|').collect();
    let mut bytes = Vec::with_capacity(n);
    while bytes.len() < n {
        for c in words[numbers.below(words.len())].chars() {
            let fits = bytes.len() + c.len_utf8() <= n;
            bytes.extend_from_slice(if fits { c } else { ' ' }.encode_utf8(&mut [0; 4]).as_bytes());
            if bytes.len() == n {
                break;
            }
        }
    }
    bytes
}

/// So many bytes of a message.
pub fn payload(content: Content, n: usize, numbers: &mut Numbers) -> Vec<u8> {
    match content {
        Content::Binary => (0..n).map(|_| numbers.next() as u8).collect(),
        Content::Ascii => text(ASCII, n, numbers),
        Content::Mixed => text(MIXED, n, numbers),
    }
}

/// So many messages of one size, one behind the other.
pub fn payloads(content: Content, size: usize, messages: u64) -> Vec<u8> {
    let mut numbers = Numbers::new();
    (0..messages).flat_map(|_| payload(content, size, &mut numbers)).collect()
}

/// The crate's own masking is not public; this is a plain loop, and nothing that is measured.
fn masked(payload: &[u8], mask: [u8; 4]) -> impl Iterator<Item = u8> + '_ {
    payload.iter().enumerate().map(move |(i, byte)| byte ^ mask[i % 4])
}

fn put_frame(stream: &mut Vec<u8>, fin: bool, opcode: u8, mask: Option<[u8; 4]>, payload: &[u8]) {
    stream.push(u8::from(fin) << 7 | opcode);
    let bit = u8::from(mask.is_some()) << 7;
    match payload.len() {
        n @ 0..=125 => stream.push(bit | n as u8),
        n @ 126..=65535 => {
            stream.push(bit | 126);
            stream.extend((n as u16).to_be_bytes());
        }
        n => {
            stream.push(bit | 127);
            stream.extend((n as u64).to_be_bytes());
        }
    }
    match mask {
        None => stream.extend_from_slice(payload),
        Some(mask) => {
            stream.extend(mask);
            stream.extend(masked(payload, mask));
        }
    }
}

/// How the messages of a session are made.
#[derive(Clone, Copy)]
pub struct Kind {
    pub content: Content,
    pub masked: bool,
    pub fragments: usize,
}

/// A stream of messages of one size, with the last one's payload.
pub struct Session {
    pub stream: Vec<u8>,
    pub messages: u64,
    pub bytes: u64,
    pub last: Vec<u8>,
}

pub fn session(kind: Kind, size: usize, messages: u64) -> Session {
    let mut numbers = Numbers::new();
    let mut made = Session { stream: Vec::new(), messages, bytes: messages * size as u64, last: Vec::new() };
    for _ in 0..messages {
        made.last = payload(kind.content, size, &mut numbers);
        let mask = kind.masked.then(|| (numbers.next() as u32).to_be_bytes());
        for k in 0..kind.fragments {
            let part = &made.last[k * size / kind.fragments..(k + 1) * size / kind.fragments];
            let opcode = if k > 0 { 0 } else { 2 - u8::from(kind.content.is_text()) };
            put_frame(&mut made.stream, k + 1 == kind.fragments, opcode, mask, part);
        }
    }
    made
}

/// A capture of a client's session, with its messages as they are listed.
pub struct Capture {
    pub file: Vec<u8>,
    pub shown: Vec<u8>,
    pub listing: Vec<u8>,
}

/// The stream comes in records of 65,535 bytes, the longest that there are.
pub fn capture(size: usize, messages: u64) -> Capture {
    let mut numbers = Numbers::new();
    let mut made = Capture { file: b"RC".to_vec(), shown: Vec::new(), listing: Vec::new() };
    let mut stream = Vec::new();
    for _ in 0..messages {
        let payload = payload(Content::Binary, size, &mut numbers);
        put_frame(&mut stream, true, 2, None, &payload);
        made.listing.extend(format!("binary {size} ").bytes());
        made.listing.extend(payload.iter().flat_map(|byte| format!("{byte:02x}").into_bytes()));
        made.listing.push(b'\n');
        made.shown.extend(payload);
    }
    for record in stream.chunks(65535) {
        made.file.extend(b"IN");
        made.file.extend((record.len() as u16).to_be_bytes());
        made.file.extend(record);
    }
    made.listing.extend(format!("capture bad at {}\n", made.file.len()).bytes());
    made
}

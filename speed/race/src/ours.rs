//! The proved loops of crates/bench, bench_read and bench_binary. Each makes its calls inside, so that the boundary is crossed once.
mod raw {
    macro_rules! loops {
        (reads: $($read:ident)*; sends: $($send:ident)*) => {
            extern "C" {
                $(pub fn $read(
                    client: bool,
                    stream: *const u8,
                    n: usize,
                    piece: usize,
                    message: *mut u8,
                    message_size: usize,
                    control: *mut u8,
                    control_size: usize,
                    output: *mut u8,
                    output_size: usize,
                    events: *mut u64,
                ) -> u64;)*
                $(pub fn $send(client: bool, payloads: *const u8, n: usize, size: usize, mask: u32, output: *mut u8, output_size: usize) -> u64;)*
            }
        };
    }
    loops! { reads: bench_read bench_read_shared; sends: bench_binary bench_binary_shared bench_text }

    extern "C" {
        pub fn bench_mask(piece: *const u8, n: usize, store: *mut u8, size: usize, mask: u32) -> bool;
        pub fn bench_mask_bytes(piece: *const u8, n: usize, store: *mut u8, size: usize, mask: u32) -> bool;
        pub fn bench_utf8(piece: *const u8, n: usize) -> bool;
        pub fn bench_take(payload: *const u8, n: usize, size: usize, output: *mut u8, output_size: usize) -> u64;
        pub fn bench_list(bytes: *const u8, n: usize, out: *mut u8, size: usize) -> u64;
        pub fn plain_hex(bytes: *const u8, n: usize, out: *mut u8);
    }
}

/// Whether a loop was compiled alone, or with the others, which make the same calls.
#[derive(Clone, Copy, PartialEq)]
pub enum Compiled {
    Alone,
    Shared,
}

/// What was read: the events and the bytes that they showed.
#[derive(Clone, Copy, Debug, PartialEq)]
pub struct Tally {
    pub events: u64,
    pub bytes: u64,
}

pub fn mask(piece: &[u8], store: &mut [u8], mask: u32) -> bool {
    unsafe { raw::bench_mask(piece.as_ptr(), piece.len(), store.as_mut_ptr(), store.len(), mask) }
}

/// The same by single bytes.
pub fn mask_bytes(piece: &[u8], store: &mut [u8], mask: u32) -> bool {
    unsafe { raw::bench_mask_bytes(piece.as_ptr(), piece.len(), store.as_mut_ptr(), store.len(), mask) }
}

pub fn utf8(piece: &[u8]) -> bool {
    unsafe { raw::bench_utf8(piece.as_ptr(), piece.len()) }
}

/// Reads a stream in pieces; the message store is lent, and stays as it is between two readings.
pub fn read(how: Compiled, client: bool, stream: &[u8], piece: usize, message: &mut [u8]) -> Tally {
    let (mut control, mut output, mut events) = ([0u8; 125], [0u8; 256], 0u64);
    let call = if how == Compiled::Alone { raw::bench_read } else { raw::bench_read_shared };
    let bytes = unsafe {
        call(
            client,
            stream.as_ptr(),
            stream.len(),
            piece,
            message.as_mut_ptr(),
            message.len(),
            control.as_mut_ptr(),
            control.len(),
            output.as_mut_ptr(),
            output.len(),
            &mut events,
        )
    };
    Tally { events, bytes }
}

/// Sends payloads of one size that stand one behind the other; gives the bytes that were put out.
pub fn send(how: Compiled, client: bool, text: bool, payloads: &[u8], size: usize, output: &mut [u8]) -> u64 {
    let call = match (text, how) {
        (false, Compiled::Alone) => raw::bench_binary,
        (false, Compiled::Shared) => raw::bench_binary_shared,
        // There is no loop of texts alone.
        (true, _) => raw::bench_text,
    };
    unsafe { call(client, payloads.as_ptr(), payloads.len(), size, 0, output.as_mut_ptr(), output.len()) }
}

/// Sends a payload and takes what is held, so many bytes at a time; gives the number of takes.
pub fn take(payload: &[u8], size: usize, output: &mut [u8]) -> u64 {
    unsafe { raw::bench_take(payload.as_ptr(), payload.len(), size, output.as_mut_ptr(), output.len()) }
}

/// Lists a capture; gives the bytes of the listing.
pub fn list(capture: &[u8], out: &mut [u8]) -> u64 {
    unsafe { raw::bench_list(capture.as_ptr(), capture.len(), out.as_mut_ptr(), out.len()) }
}

/// Not ours but C's: bytes in hex, with nothing else.
pub fn plain_hex(bytes: &[u8], out: &mut [u8]) {
    assert!(2 * bytes.len() <= out.len());
    unsafe { raw::plain_hex(bytes.as_ptr(), bytes.len(), out.as_mut_ptr()) }
}

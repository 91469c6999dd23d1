//! The bytes of the vectors, as `host/kit/c/runner.c` reads them.

/// A number in groups of seven bits, the lowest first; all bytes but the last have their highest bit set.
pub fn put_number(bytes: &mut Vec<u8>, mut number: u64) {
    while number >= 128 {
        bytes.push(number as u8 | 128);
        number >>= 7;
    }
    bytes.push(number as u8);
}

/// The way from one number to another, around 2^64 if that is shorter: twice the distance, plus 1 if it leads down.
pub fn put_way(bytes: &mut Vec<u8>, from: u64, to: u64) {
    let way = to.wrapping_sub(from) as i64;
    put_number(bytes, (way.wrapping_shl(1) ^ (way >> 63)) as u64);
}

/// Bytes as they are, after their number.
pub fn put_bytes(bytes: &mut Vec<u8>, given: &[u8]) {
    put_number(bytes, given.len() as u64);
    bytes.extend_from_slice(given);
}

/// A text as its runs of equal bytes, each as its length and the byte. A run of 1 to 127 different bytes has 128 added to its length.
pub fn put_text(bytes: &mut Vec<u8>, text: &[u8]) {
    put_number(bytes, text.len() as u64);
    let mut rest = text;
    while let Some(first) = rest.first() {
        let same = rest.iter().take(127).take_while(|byte| *byte == first).count();
        if same > 2 {
            bytes.extend([same as u8, *first]);
            rest = &rest[same..];
        } else {
            let run = different(rest);
            bytes.push(128 | run as u8);
            bytes.extend_from_slice(&rest[..run]);
            rest = &rest[run..];
        }
    }
}

/// How many bytes stand before the next three equal ones, at most 127.
fn different(text: &[u8]) -> usize {
    let three = text.windows(3).position(|three| three[0] == three[1] && three[1] == three[2]);
    three.unwrap_or(text.len()).clamp(1, 127)
}

/// A sum over bytes that finds a damaged copy (FNV-1a with 64 bits).
pub fn sum(bytes: &[u8]) -> u64 {
    bytes.iter().fold(0xcbf2_9ce4_8422_2325, |sum, byte| (sum ^ u64::from(*byte)).wrapping_mul(0x0100_0000_01b3))
}

//! Lines on digests. Expected are the check value of the CRC's polynomial, the vector that SipHash's authors published
//! (2 and 4 rounds, of the first 15 bytes), and for 1 and 2 rounds what an implementation in Python that was written apart
//! made of the first 0 to 64 of the bytes 0 to 63.

use digests::{crc, sip};
use row_words::{number, unknown};
use std::alloc::{AllocError, Global};

// The key of the published vector: the bytes 0 to 15.
const K0: u64 = 0x0706_0504_0302_0100;

const K1: u64 = 0x0f0e_0d0c_0b0a_0908;

// So many bytes from 0 on.
fn rising(alloc: Global, count: u8) -> Result<Vec<u8>, AllocError> {
    let mut bytes = Vec::new(alloc);
    for byte in 0..count {
        bytes.push(byte)?;
    }
    Ok(bytes)
}

// SipHash of the first of the bytes.
fn sip_of(alloc: Global, each: u32, last: u32, count: u8) -> Result<u64, AllocError> {
    let bytes = rising(alloc, count)?;
    Ok(sip(each, last, K0, K1, &bytes))
}

// The CRC of some pieces, one after the other.
fn crc_of(pieces: &[&str]) -> u64 {
    let mut sum = 0;
    for piece in pieces {
        sum = crc(sum, piece.as_bytes());
    }
    sum
}

// A small number.
fn rounds(word: &str) -> u32 {
    u32::try_from(number(word)).unwrap_or(0)
}

/// What a line of these words answers.
pub fn answer(alloc: Global, call: &str, words: &[&str]) -> Result<String, AllocError> {
    let sum = match (call, words) {
        ("sip", [each, last, count]) => {
            let count = u8::try_from(number(count)).unwrap_or(0);
            sip_of(alloc, rounds(each), rounds(last), count)?
        }
        ("crc", pieces) => crc_of(pieces),
        _ => return unknown(alloc),
    };
    format!(in alloc; "{sum:x}")
}

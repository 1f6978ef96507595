//! Frames of V1 and V2: the checks 2, 3, 4 and 6, and putting them together.

use super::{all_digits, number_of, ADDRESS, CHECKSUM, LENGTH, SHAPE};

pub const CR: u8 = 13;

/// The sum of the bytes, mod 64, plus 64.
pub fn checksum(bytes: &[u8]) -> u8 {
    let sum: u32 = bytes.iter().map(|b| u32::from(*b)).sum();
    (sum % 64 + 64) as u8
}

/// A frame that passed the checks 2, 3 and 4.
#[derive(Clone, Copy, PartialEq, Eq, Debug)]
pub enum Frame<'a> {
    V1 { address: u16, letter: u8, data: &'a [u8] },
    V2 { address: u16, access: u8, command: [u8; 2], len: [u8; 2], data: &'a [u8] },
}

impl Frame<'_> {
    pub fn address(&self) -> u16 {
        match self {
            Frame::V1 { address, .. } | Frame::V2 { address, .. } => *address,
        }
    }
}

/// The length, byte 3, CR and the bytes before the checksum.
fn shape_is_right(bytes: &[u8]) -> bool {
    let lengths = match bytes.get(3) {
        Some(byte) if byte.is_ascii_digit() => 10..=109,
        Some(byte) if byte.is_ascii_alphabetic() => 6..=12,
        _ => return false,
    };
    if !lengths.contains(&bytes.len()) {
        return false;
    }
    let (before, end) = bytes.split_at(bytes.len() - 2);
    end[1] == CR && end[0] != CR && before.iter().all(|b| (32..=126).contains(b))
}

/// Three digits, not 000.
fn read_address(bytes: &[u8]) -> Option<u16> {
    let address = if all_digits(bytes) { number_of(bytes) } else { 0 };
    (address != 0).then_some(address as u16)
}

/// Opens a frame, or gives the number 2, 3 or 4.
pub fn open(bytes: &[u8]) -> Result<Frame<'_>, u16> {
    if !shape_is_right(bytes) {
        return Err(SHAPE);
    }
    let (before, end) = bytes.split_at(bytes.len() - 2);
    if end[0] != checksum(before) {
        return Err(CHECKSUM);
    }
    let address = read_address(&before[..3]).ok_or(ADDRESS)?;
    if before[3].is_ascii_digit() {
        let (command, len) = ([before[4], before[5]], [before[6], before[7]]);
        Ok(Frame::V2 { address, access: before[3], command, len, data: &before[8..] })
    } else {
        Ok(Frame::V1 { address, letter: before[3], data: &before[4..] })
    }
}

/// LEN is two digits and the count of the data.
pub fn check_len(len: [u8; 2], data: &[u8]) -> Result<(), u16> {
    if all_digits(&len) && number_of(&len) as usize == data.len() {
        Ok(())
    } else {
        Err(LENGTH)
    }
}

/// Adds checksum and CR.
pub fn close(mut bytes: Vec<u8>) -> Vec<u8> {
    bytes.push(checksum(&bytes));
    bytes.push(CR);
    bytes
}

/// A V2 frame; the address has three digits.
pub fn build_v2(address: u16, access: u8, command: [u8; 2], data: &[u8]) -> Vec<u8> {
    let mut bytes = format!("{address:03}").into_bytes();
    bytes.push(access);
    bytes.extend(command);
    bytes.extend(format!("{:02}", data.len()).into_bytes());
    bytes.extend(data);
    close(bytes)
}

/// A V1 frame; the text is the letter and the data.
pub fn build_v1(address: u16, text: &[u8]) -> Vec<u8> {
    let mut bytes = format!("{address:03}").into_bytes();
    bytes.extend(text);
    close(bytes)
}

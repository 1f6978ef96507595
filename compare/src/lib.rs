//! An independent implementation of the rules of document 01 and the changes of
//! document 02 so far (Items 3, 6 and 9), used as the reference that another
//! implementation is compared with.

pub mod captures;
pub mod met;
pub mod opg;
pub mod program;
pub mod random;
pub mod replay;
pub mod script;
pub mod sequence;
pub mod text;
pub mod typed;
pub mod words;

/// Puts the bytes at the start of the memory; the bytes after them stay.
pub fn place(bytes: &[u8], memory: &mut [u8]) -> usize {
    memory[..bytes.len()].copy_from_slice(bytes);
    bytes.len()
}

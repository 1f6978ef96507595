//! The proved functions, as `include/perrezkun.h` declares them. Each takes any
//! slices; a slice passes as a pointer and a length.

mod c {
    extern "C" {
        pub fn perrezkun_play(
            script: *const u8, script_len: usize, memory: *mut u8, memory_len: usize,
            numbers: *mut u16, numbers_len: usize, lens: *mut u16, lens_len: usize,
        ) -> usize;
        pub fn perrezkun_play_on(
            profile: u8, script: *const u8, script_len: usize, memory: *mut u8, memory_len: usize,
            numbers: *mut u16, numbers_len: usize, lens: *mut u16, lens_len: usize,
        ) -> usize;
        pub fn perrezkun_opg_crc(bytes: *const u8, bytes_len: usize) -> u16;
        pub fn perrezkun_rewrite_text(
            request: *const u8, request_len: usize, out: *mut u8, out_len: usize, len: *mut usize,
        ) -> u16;
        pub fn perrezkun_rewrite_opg(
            request: *const u8, request_len: usize, out: *mut u8, out_len: usize, len: *mut usize,
        ) -> u16;
    }
}

// Safety of the calls below: no function has a `requires`. Each pointer is that
// of a slice, with its length, and the `&mut` slices overlap no other.

/// Plays a script on the proved gauges, the text gauge of the third profile: how
/// many calls were made.
pub fn play(script: &[u8], memory: &mut [u8], numbers: &mut [u16], lens: &mut [u16]) -> usize {
    unsafe {
        c::perrezkun_play(
            script.as_ptr(), script.len(), memory.as_mut_ptr(), memory.len(),
            numbers.as_mut_ptr(), numbers.len(), lens.as_mut_ptr(), lens.len(),
        )
    }
}

/// The same on a text gauge of the profile with this number: 0 the third, 1 VSH,
/// 2 VSM. Any other makes no call and writes nothing.
#[allow(dead_code)]
pub fn play_on(profile: u8, script: &[u8], memory: &mut [u8], numbers: &mut [u16], lens: &mut [u16]) -> usize {
    unsafe {
        c::perrezkun_play_on(
            profile, script.as_ptr(), script.len(), memory.as_mut_ptr(), memory.len(),
            numbers.as_mut_ptr(), numbers.len(), lens.as_mut_ptr(), lens.len(),
        )
    }
}

pub fn opg_crc(bytes: &[u8]) -> u16 {
    unsafe { c::perrezkun_opg_crc(bytes.as_ptr(), bytes.len()) }
}

/// Reads a text request and writes it again: the number and the length.
#[allow(dead_code)]
pub fn rewrite_text(request: &[u8], out: &mut [u8]) -> (u16, usize) {
    let mut len = 0;
    let number = unsafe {
        c::perrezkun_rewrite_text(request.as_ptr(), request.len(), out.as_mut_ptr(), out.len(), &mut len)
    };
    (number, len)
}

/// Reads an OPG request and writes it again: the number and the length.
#[allow(dead_code)]
pub fn rewrite_opg(request: &[u8], out: &mut [u8]) -> (u16, usize) {
    let mut len = 0;
    let number = unsafe {
        c::perrezkun_rewrite_opg(request.as_ptr(), request.len(), out.as_mut_ptr(), out.len(), &mut len)
    };
    (number, len)
}

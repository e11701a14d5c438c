//! The two functions of the library, and the one place with `unsafe`.

unsafe extern "C" {
    fn tavumxa_room_for(input: *const u8, input_length: usize) -> usize;
    fn tavumxa_respond(
        input: *const u8,
        input_length: usize,
        out: *mut u8,
        out_length: usize,
        size: &mut usize,
    ) -> bool;
}

/// What the window program prints for an input.
pub fn respond(input: &[u8]) -> Vec<u8> {
    // SAFETY: the slice is valid for its length.
    let room = unsafe { tavumxa_room_for(input.as_ptr(), input.len()) };
    let mut out = vec![0; room];
    let mut size = 0;
    // SAFETY: both slices are valid for their lengths, and no two of the three overlap.
    let done = unsafe {
        tavumxa_respond(
            input.as_ptr(),
            input.len(),
            out.as_mut_ptr(),
            out.len(),
            &mut size,
        )
    };
    assert!(done, "a buffer with the room that was asked for is enough");
    out.truncate(size);
    out
}

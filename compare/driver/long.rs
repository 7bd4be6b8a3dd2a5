//! Data so long that it is refused.

/// Refusal 1 begins here.
pub const TOO_LONG: usize = 1 << 31;

/// Zeroed memory that the system gives no pages for until it is written.
pub fn untouched(length: usize) -> Result<&'static mut [u8], String> {
    let layout = std::alloc::Layout::array::<u8>(length).map_err(|e| e.to_string())?;
    // SAFETY: the length is not 0, the memory is zeroed, and nothing else ever refers to it.
    unsafe {
        let start = std::alloc::alloc_zeroed(layout);
        if start.is_null() {
            return Err(format!("no {length} bytes to be had"));
        }
        Ok(std::slice::from_raw_parts_mut(start, length))
    }
}

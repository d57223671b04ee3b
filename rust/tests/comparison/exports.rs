//! The exported functions themselves, as a C program calls them. The library goes
//! over those that set `place`; what they set beside an answer other than 3 is seen
//! here alone, and so are `aez_seal` and `aez_open`.

// It brings the static library.
use jarrovento as _;

unsafe extern "C" {
    fn aez_seal(
        key: *const u8,
        key_len: usize,
        header: *const u8,
        header_len: usize,
        stretch: u64,
        text: *const u8,
        text_len: usize,
        out: *mut u8,
        out_len: usize,
    ) -> u32;

    fn aez_open(
        key: *const u8,
        key_len: usize,
        header: *const u8,
        header_len: usize,
        stretch: u64,
        sealed: *const u8,
        sealed_len: usize,
        out: *mut u8,
        out_len: usize,
    ) -> u32;

    fn aez_seal_at(
        key: *const u8,
        key_len: usize,
        header: *const u8,
        header_len: usize,
        stretch: u64,
        text: *const u8,
        text_len: usize,
        out: *mut u8,
        out_len: usize,
        place: *mut u64,
    ) -> u32;

    fn aez_open_at(
        key: *const u8,
        key_len: usize,
        header: *const u8,
        header_len: usize,
        stretch: u64,
        sealed: *const u8,
        sealed_len: usize,
        out: *mut u8,
        out_len: usize,
        place: *mut u64,
    ) -> u32;

    fn aez_header_read(
        header: *const u8,
        header_len: usize,
        strings: *mut u64,
        place: *mut u64,
    ) -> u32;
}

/// `aez_seal` or `aez_open`.
type Call = unsafe extern "C" fn(
    *const u8,
    usize,
    *const u8,
    usize,
    u64,
    *const u8,
    usize,
    *mut u8,
    usize,
) -> u32;

/// `aez_seal_at` or `aez_open_at`.
type CallAt = unsafe extern "C" fn(
    *const u8,
    usize,
    *const u8,
    usize,
    u64,
    *const u8,
    usize,
    *mut u8,
    usize,
    *mut u64,
) -> u32;

/// What sealing and opening take; `bytes` is the text to seal, or the string to open.
#[derive(Clone, Copy)]
pub struct Inputs<'a> {
    pub key: &'a [u8],
    pub header: &'a [u8],
    pub stretch: u64,
    pub bytes: &'a [u8],
}

pub fn seal(inputs: Inputs, out: &mut [u8]) -> u32 {
    call(aez_seal, inputs, out)
}

pub fn open(inputs: Inputs, out: &mut [u8]) -> u32 {
    call(aez_open, inputs, out)
}

pub fn seal_at(inputs: Inputs, out: &mut [u8], place: &mut u64) -> u32 {
    call_at(aez_seal_at, inputs, out, place)
}

pub fn open_at(inputs: Inputs, out: &mut [u8], place: &mut u64) -> u32 {
    call_at(aez_open_at, inputs, out, place)
}

fn call(function: Call, inputs: Inputs, out: &mut [u8]) -> u32 {
    // SAFETY: four slices, each passed as its own pointer and length; `out` is
    // the `&mut`.
    unsafe {
        function(
            inputs.key.as_ptr(),
            inputs.key.len(),
            inputs.header.as_ptr(),
            inputs.header.len(),
            inputs.stretch,
            inputs.bytes.as_ptr(),
            inputs.bytes.len(),
            out.as_mut_ptr(),
            out.len(),
        )
    }
}

fn call_at(function: CallAt, inputs: Inputs, out: &mut [u8], place: &mut u64) -> u32 {
    // SAFETY: four slices, each passed as its own pointer and length; `out` and
    // `place` are the two `&mut`.
    unsafe {
        function(
            inputs.key.as_ptr(),
            inputs.key.len(),
            inputs.header.as_ptr(),
            inputs.header.len(),
            inputs.stretch,
            inputs.bytes.as_ptr(),
            inputs.bytes.len(),
            out.as_mut_ptr(),
            out.len(),
            place,
        )
    }
}

pub fn header_read(header: &[u8], strings: &mut u64, place: &mut u64) -> u32 {
    // SAFETY: one slice, passed as its pointer and length; `strings` and `place` are
    // the two `&mut`.
    unsafe { aez_header_read(header.as_ptr(), header.len(), strings, place) }
}

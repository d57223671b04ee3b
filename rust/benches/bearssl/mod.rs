//! AES-128-CTR of BearSSL, as bearssl_block.h declares it, in its four ways without
//! instructions of the processor's for AES.

use std::ffi::{c_uint, c_void};
use std::mem::MaybeUninit;

/// The nonce of every run: 12 bytes; the block counter starts from 0.
const IV: [u8; 12] = [0; 12];

/// `br_aes_big_ctr_keys` and so on. All four have the same layout: 240 bytes of subkeys,
/// numbers of 64 bits in `ct64` and of 32 in the others, start at a multiple of 8.
#[repr(C)]
struct Keys {
    _vtable: *const c_void,
    _skey: [u64; 30],
    _num_rounds: c_uint,
}

type Init = unsafe extern "C" fn(*mut Keys, *const c_void, usize);
type Run = unsafe extern "C" fn(*const Keys, *const c_void, u32, *mut c_void, usize) -> u32;

#[link(name = "bearssl")]
unsafe extern "C" {
    fn br_aes_big_ctr_init(ctx: *mut Keys, key: *const c_void, len: usize);
    fn br_aes_big_ctr_run(
        ctx: *const Keys,
        iv: *const c_void,
        cc: u32,
        data: *mut c_void,
        len: usize,
    ) -> u32;
    fn br_aes_small_ctr_init(ctx: *mut Keys, key: *const c_void, len: usize);
    fn br_aes_small_ctr_run(
        ctx: *const Keys,
        iv: *const c_void,
        cc: u32,
        data: *mut c_void,
        len: usize,
    ) -> u32;
    fn br_aes_ct_ctr_init(ctx: *mut Keys, key: *const c_void, len: usize);
    fn br_aes_ct_ctr_run(
        ctx: *const Keys,
        iv: *const c_void,
        cc: u32,
        data: *mut c_void,
        len: usize,
    ) -> u32;
    fn br_aes_ct64_ctr_init(ctx: *mut Keys, key: *const c_void, len: usize);
    fn br_aes_ct64_ctr_run(
        ctx: *const Keys,
        iv: *const c_void,
        cc: u32,
        data: *mut c_void,
        len: usize,
    ) -> u32;
}

/// A cipher with its key.
pub struct Ctr {
    keys: Keys,
    run: Run,
}

impl Ctr {
    /// T-tables: one of 1 kB, whose words are turned for the other three.
    pub fn big(key: &[u8; 16]) -> Ctr {
        Ctr::new(key, br_aes_big_ctr_init, br_aes_big_ctr_run)
    }

    /// A table of 256 bytes, the S-box.
    pub fn small(key: &[u8; 16]) -> Ctr {
        Ctr::new(key, br_aes_small_ctr_init, br_aes_small_ctr_run)
    }

    /// No table: bit planes of 32 bits, two blocks at once.
    pub fn ct(key: &[u8; 16]) -> Ctr {
        Ctr::new(key, br_aes_ct_ctr_init, br_aes_ct_ctr_run)
    }

    /// No table: bit planes of 64 bits, four blocks at once.
    pub fn ct64(key: &[u8; 16]) -> Ctr {
        Ctr::new(key, br_aes_ct64_ctr_init, br_aes_ct64_ctr_run)
    }

    fn new(key: &[u8; 16], init: Init, run: Run) -> Ctr {
        let mut keys = MaybeUninit::zeroed();
        // SAFETY: the function fills what it uses of the keys, which are laid out as it
        // expects; the rest is zero, which each field can be.
        let keys = unsafe {
            init(keys.as_mut_ptr(), key.as_ptr().cast(), key.len());
            keys.assume_init()
        };
        Ctr { keys, run }
    }

    /// Enciphers the data in place.
    pub fn run(&self, data: &mut [u8]) {
        let start = data.as_mut_ptr().cast();
        // SAFETY: the keys are made by the function of the same cipher, and the data is
        // one slice.
        unsafe { (self.run)(&self.keys, IV.as_ptr().cast(), 0, start, data.len()) };
    }
}

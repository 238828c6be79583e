//! Settings kept in the board (include/uf2_store.h): a packed store, 2 bytes and 22 for each used entry.
//!
//! Good settings have one store, whatever stands in their unused entries and user families. What is read has zeros there.
//!
//! ```
//! use vantorel::store::{self, Refusal};
//! use vantorel::Settings;
//!
//! let mut bytes = [0; store::MAX_BYTES];
//! let len = store::write(&Settings::ARM, 32_768, &mut bytes)?;
//! assert_eq!(bytes[..len], [0x10, 0x10]);
//! assert_eq!(store::read(&bytes[..len], 32_768)?, Settings::ARM);
//! assert_eq!(store::read(&[0x30, 0x10], 32_768), Err(Refusal::BadVersion));
//! # Ok::<(), Refusal>(())
//! ```

use core::fmt;

use crate::{Settings, ENTRIES, SETTINGS_BYTES};

mod ffi {
    //! The functions of libstoreapi.a. A slice is a pointer and then a length.

    pub use crate::ffi::{len, Len};

    extern "C" {
        pub fn uf2_store_read(
            store: *const u8,
            store_len: Len,
            flash_len: Len,
            settings: *mut u8,
            settings_len: Len,
        ) -> u32;

        pub fn uf2_store_write(
            settings: *const u8,
            settings_len: Len,
            flash_len: Len,
            store: *mut u8,
            store_len: Len,
        ) -> u32;
    }
}

/// The calls as they are, for settings that are bytes already, of any length. What the library returns is handed on as it is.
pub mod bytes {
    use super::ffi::{self, len, Len};

    /// 0 and the settings of a store in the [`SETTINGS_BYTES`](crate::SETTINGS_BYTES) of `settings`; or the number of a refusal, and `settings` stays.
    pub fn read(store: &[u8], flash_len: usize, settings: &mut [u8]) -> u32 {
        let (at, size) = (settings.as_mut_ptr(), len(settings));
        // SAFETY: each pointer and length is of one slice, and a slice that is written overlaps no other.
        unsafe { ffi::uf2_store_read(store.as_ptr(), len(store), flash_len as Len, at, size) }
    }

    /// 0 and the store of settings at the start of `store`; or the number of a refusal, and `store` stays.
    pub fn write(settings: &[u8], flash_len: usize, store: &mut [u8]) -> u32 {
        let (at, size) = (store.as_mut_ptr(), len(store));
        // SAFETY: each pointer and length is of one slice, and a slice that is written overlaps no other.
        unsafe {
            ffi::uf2_store_write(settings.as_ptr(), len(settings), flash_len as Len, at, size)
        }
    }
}

const HEAD_BYTES: usize = 2;
const ENTRY_BYTES: usize = 22;

/// The most bytes of a store.
pub const MAX_BYTES: usize = HEAD_BYTES + ENTRIES * ENTRY_BYTES;

/// Why no settings are read or written, by its number.
#[derive(Clone, Copy, PartialEq, Eq, Debug)]
#[repr(u8)]
pub enum Refusal {
    /// The flash's length is wrong.
    BadBuffers = 1,
    /// The settings are bad for a flash of this length.
    BadSettings = 2,
    /// The version is neither 1 nor 2.
    BadVersion = 40,
    /// The store has a wrong length, or the buffer for it is too short.
    BadLength = 41,
    /// Stray bits, or numbers that no store has.
    BadBits = 42,
}

impl Refusal {
    /// Its number.
    pub const fn number(self) -> u8 {
        self as u8
    }

    const ALL: [Refusal; 5] = [
        Refusal::BadBuffers,
        Refusal::BadSettings,
        Refusal::BadVersion,
        Refusal::BadLength,
        Refusal::BadBits,
    ];

    fn of(number: u32) -> Result<(), Refusal> {
        if number == 0 {
            return Ok(());
        }
        let known = Refusal::ALL
            .into_iter()
            .find(|x| u32::from(x.number()) == number);
        Err(known.unwrap_or_else(|| panic!("{number} is no answer about a store")))
    }
}

impl fmt::Display for Refusal {
    fn fmt(&self, f: &mut fmt::Formatter<'_>) -> fmt::Result {
        f.write_str(match self {
            Refusal::BadBuffers => "the flash's length is wrong",
            Refusal::BadSettings => "the settings are not good for this flash",
            Refusal::BadVersion => "the store's version is neither 1 nor 2",
            Refusal::BadLength => "the store has a wrong length",
            Refusal::BadBits => "the store has stray bits, or numbers that no store has",
        })
    }
}

impl core::error::Error for Refusal {}

/// The settings of a store, for a flash of that length; those of unused entries and user families are zero.
///
/// # Panics
///
/// Where the library returns a number or settings that it never does (see the crate's page).
pub fn read(store: &[u8], flash_len: usize) -> Result<Settings, Refusal> {
    let mut settings = [0; SETTINGS_BYTES];
    Refusal::of(bytes::read(store, flash_len, &mut settings))?;
    Ok(Settings::from_bytes(&settings).expect("the settings of a store have links"))
}

/// Writes the store of settings that are good for a flash of that length: its length. What lies after it stays, and a refusal writes nothing.
///
/// # Panics
///
/// Where the library returns a number that it never does (see the crate's page).
pub fn write(settings: &Settings, flash_len: usize, store: &mut [u8]) -> Result<usize, Refusal> {
    Refusal::of(bytes::write(&settings.bytes(), flash_len, store))?;
    Ok(HEAD_BYTES + ENTRY_BYTES * usize::from(settings.count))
}

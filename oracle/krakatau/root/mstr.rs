//! Stand-in for `crate::util::mstr`, which is not among the carried files: a newtype over bytes.

#[allow(non_camel_case_types)]
#[derive(Debug, PartialEq, Eq, Hash)]
#[repr(transparent)]
pub struct mstr([u8]);

impl mstr {
    pub fn new(bytes: &[u8]) -> &mstr {
        // SAFETY: `mstr` is a transparent wrapper of `[u8]`, so both pointers have the same layout.
        unsafe { &*(std::ptr::from_ref(bytes) as *const mstr) }
    }

    pub fn as_bytes(&self) -> &[u8] {
        &self.0
    }
}

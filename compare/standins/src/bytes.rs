//! Bytes that are shared, and what they are written to.

use std::{ops::Deref, sync::Arc};

/// Bytes that clones share.
#[derive(Clone, Debug, PartialEq, Eq)]
pub struct Bytes {
    all: Arc<[u8]>,
    from: usize,
}

impl Bytes {
    /// Leaves the first bytes out.
    pub(crate) fn skip(&mut self, count: usize) {
        self.from += count;
    }
}

impl From<Vec<u8>> for Bytes {
    fn from(all: Vec<u8>) -> Self {
        Self {
            all: all.into(),
            from: 0,
        }
    }
}

impl Deref for Bytes {
    type Target = [u8];

    fn deref(&self) -> &[u8] {
        &self.all[self.from..]
    }
}

pub trait BufMut {
    fn put_slice(&mut self, bytes: &[u8]);
}

impl BufMut for Vec<u8> {
    fn put_slice(&mut self, bytes: &[u8]) {
        self.extend_from_slice(bytes);
    }
}

//! A stand-in for minibytes: shared bytes with cheap slices. Serialized as count and bytes.
use std::ops::{Bound, Deref, RangeBounds};
use std::sync::Arc;

#[derive(Clone)]
pub struct Bytes {
    owner: Arc<dyn AsRef<[u8]> + Send + Sync>,
    from: usize,
    to: usize,
}

impl Bytes {
    pub fn new() -> Self {
        Vec::new().into()
    }
    pub fn slice(&self, range: impl RangeBounds<usize>) -> Self {
        let from = match range.start_bound() {
            Bound::Included(n) => *n,
            Bound::Excluded(n) => *n + 1,
            Bound::Unbounded => 0,
        };
        let to = match range.end_bound() {
            Bound::Included(n) => *n + 1,
            Bound::Excluded(n) => *n,
            Bound::Unbounded => self.to - self.from,
        };
        assert!(from <= to && to <= self.to - self.from);
        Self { owner: self.owner.clone(), from: self.from + from, to: self.from + to }
    }
    pub fn downcast_mut<T: 'static>(&mut self) -> Option<&mut T> {
        None
    }
}

impl Default for Bytes {
    fn default() -> Self {
        Self::new()
    }
}
impl Deref for Bytes {
    type Target = [u8];
    fn deref(&self) -> &[u8] {
        &(*self.owner).as_ref()[self.from..self.to]
    }
}
impl AsRef<[u8]> for Bytes {
    fn as_ref(&self) -> &[u8] {
        self
    }
}
impl From<Vec<u8>> for Bytes {
    fn from(v: Vec<u8>) -> Self {
        let to = v.len();
        Self { owner: Arc::new(v), from: 0, to }
    }
}
impl From<memmap2::Mmap> for Bytes {
    fn from(m: memmap2::Mmap) -> Self {
        let to = m.len();
        Self { owner: Arc::new(m), from: 0, to }
    }
}
impl std::fmt::Debug for Bytes {
    fn fmt(&self, f: &mut std::fmt::Formatter<'_>) -> std::fmt::Result {
        write!(f, "{:?}", &self[..])
    }
}
impl PartialEq for Bytes {
    fn eq(&self, other: &Self) -> bool {
        self[..] == other[..]
    }
}
impl serde::Serialize for Bytes {
    fn serialize<S: serde::Serializer>(&self, s: S) -> Result<S::Ok, S::Error> {
        s.serialize_bytes(self)
    }
}
impl<'de> serde::Deserialize<'de> for Bytes {
    fn deserialize<D: serde::Deserializer<'de>>(d: D) -> Result<Self, D::Error> {
        Ok(<Vec<u8> as serde::Deserialize>::deserialize(d)?.into())
    }
}

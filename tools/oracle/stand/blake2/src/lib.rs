//! A stand-in for RustCrypto's blake2: a digest of the right length (digests are not recomputed by the store).
use digest::{FixedOutput, HashMarker, Output, OutputSizeUser, Update};
use std::marker::PhantomData;

pub struct Blake2b<N>(u64, PhantomData<N>);

impl<N> Default for Blake2b<N> {
    fn default() -> Self {
        Self(0xcbf2_9ce4_8422_2325, PhantomData)
    }
}
impl<N: digest::generic_array::ArrayLength<u8> + 'static> OutputSizeUser for Blake2b<N> {
    type OutputSize = N;
}
impl<N> HashMarker for Blake2b<N> {}
impl<N> Update for Blake2b<N> {
    fn update(&mut self, data: &[u8]) {
        for b in data {
            self.0 = (self.0 ^ *b as u64).wrapping_mul(0x0000_0100_0000_01b3);
        }
    }
}
impl<N: digest::generic_array::ArrayLength<u8> + 'static> FixedOutput for Blake2b<N> {
    fn finalize_into(self, out: &mut Output<Self>) {
        let mut x = self.0;
        for b in out.iter_mut() {
            x = x.wrapping_mul(6364136223846793005).wrapping_add(1442695040888963407);
            *b = (x >> 56) as u8;
        }
    }
}

//! A stand-in for ed25519-consensus: its types, without the signatures (nothing here verifies one).
use rand::RngCore;
use serde::{Deserialize, Serialize};

#[derive(Clone, Eq, PartialEq, Serialize, Deserialize, Debug)]
pub struct VerificationKey([u8; 32]);
#[derive(Clone, Serialize, Deserialize)]
pub struct SigningKey([u8; 32]);
pub struct Signature([u8; 64]);
#[derive(Debug)]
pub struct Error;

impl SigningKey {
    pub fn new<R: RngCore>(rng: &mut R) -> Self {
        let mut key = [0; 32];
        rng.fill_bytes(&mut key);
        Self(key)
    }
    pub fn sign(&self, _: &[u8]) -> Signature {
        Signature([0; 64])
    }
    pub fn verification_key(&self) -> VerificationKey {
        VerificationKey(self.0)
    }
}
impl From<[u8; 32]> for SigningKey {
    fn from(key: [u8; 32]) -> Self {
        Self(key)
    }
}
impl zeroize::Zeroize for SigningKey {
    fn zeroize(&mut self) {
        self.0 = [0; 32];
    }
}
impl Signature {
    pub fn to_bytes(&self) -> [u8; 64] {
        self.0
    }
}
impl From<[u8; 64]> for Signature {
    fn from(bytes: [u8; 64]) -> Self {
        Self(bytes)
    }
}
impl VerificationKey {
    pub fn verify(&self, _: &Signature, _: &[u8]) -> Result<(), Error> {
        Ok(())
    }
}

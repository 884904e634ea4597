//! Where recovered certificates go.

use crate::simplex::types::Certificate;
use commonware_cryptography::{Digest, certificate::Scheme};

/// Keeps the certificate of the last delivery that was taken.
pub struct Mailbox<S: Scheme, D: Digest>(pub Option<Certificate<S, D>>);

impl<S: Scheme, D: Digest> Mailbox<S, D> {
    pub fn recovered(&mut self, certificate: Certificate<S, D>) {
        self.0 = Some(certificate);
    }
}

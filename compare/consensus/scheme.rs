//! Signature schemes, as far as certificates name them, and the one that the comparison runs with.

use crate::simplex::types::Subject;
use bytes::BufMut;
use commonware_codec::{Buf, EncodeSize, Error, FixedSize, MaxEncodeSize, Read, Write};
use commonware_cryptography::{
    Digest, PublicKey,
    certificate::{AssemblyError, Attestation, Scheme as Base},
};
use commonware_parallel::Strategy;
use commonware_utils::{Participant, iter::NonEmpty, ordered::Set};
use rand_core::CryptoRng;

pub trait CertificateVerifier<D: Digest> {
    type Certificate;

    fn verify_certificate<R: CryptoRng, E>(
        &self,
        rng: &mut R,
        subject: Subject<'_, D>,
        certificate: &Self::Certificate,
        strategy: &impl Strategy,
    ) -> bool;

    fn verify_certificates_bisect<R: CryptoRng, E>(
        &self,
        rng: &mut R,
        certificates: &[(Subject<'_, D>, &Self::Certificate)],
        strategy: &impl Strategy,
    ) -> Vec<bool> {
        certificates
            .iter()
            .map(|(subject, certificate)| {
                self.verify_certificate::<R, E>(rng, *subject, certificate, strategy)
            })
            .collect()
    }
}

/// Votes are neither made nor verified here.
pub trait Scheme<D: Digest>:
    Base + CertificateVerifier<D, Certificate = <Self as Base>::Certificate>
{
    fn sign<E>(&self, _subject: Subject<'_, D>) -> Option<Attestation<Self>> {
        None
    }

    fn verify_attestation<R: CryptoRng, E>(
        &self,
        _rng: &mut R,
        _subject: Subject<'_, D>,
        _attestation: &Attestation<Self>,
        _strategy: &impl Strategy,
    ) -> bool {
        false
    }
}

/// A seat of the register, as the key of a peer.
#[derive(Clone, Copy, Debug, PartialEq, Eq, PartialOrd, Ord, Hash)]
pub struct Seat(pub u32);

/// 32 bytes: a payload digest, or a proof.
#[derive(Clone, Copy, Debug, PartialEq, Eq, PartialOrd, Ord, Hash)]
pub struct Bytes32(pub [u8; 32]);

macro_rules! leaf {
    ($name:ident, $size:expr, $value:ident => $bytes:expr, $array:ident => $back:expr) => {
        impl Write for $name {
            fn write(&self, buf: &mut impl BufMut) {
                let $value = self;
                buf.put_slice(&$bytes);
            }
        }

        impl Read for $name {
            type Cfg = ();

            fn read_cfg(buf: &mut impl Buf, _: &()) -> Result<Self, Error> {
                let $array = buf.take()?;
                Ok($back)
            }
        }

        impl EncodeSize for $name {
            fn encode_size(&self) -> usize {
                $size
            }
        }

        impl FixedSize for $name {
            const SIZE: usize = $size;
        }

        impl MaxEncodeSize for $name {
            const MAX_ENCODE_SIZE: usize = $size;
        }
    };
}

leaf!(Seat, 4, seat => seat.0.to_be_bytes(), array => Self(u32::from_be_bytes(array)));
leaf!(Bytes32, 32, bytes => bytes.0, array => Self(array));

impl PublicKey for Seat {}
impl Digest for Bytes32 {}

/// Accepts a proof that names enough seats, and none that there is not.
#[derive(Clone, Debug)]
pub struct Seats {
    pub seats: u64,
    pub quorum: u64,
    pub none: Set<Seat>,
}

impl Seats {
    fn accepts(&self, proof: &Bytes32) -> bool {
        let (mask, rest) = proof.0.split_at(8);
        let mask = u64::from_be_bytes(mask.try_into().expect("eight bytes"));
        let within = self.seats >= 64 || mask >> self.seats == 0;
        within && u64::from(mask.count_ones()) >= self.quorum && rest.iter().all(|byte| *byte == 0)
    }
}

impl Base for Seats {
    type PublicKey = Seat;
    type Signature = ();
    type Certificate = Bytes32;

    fn participants(&self) -> &Set<Seat> {
        &self.none
    }

    fn me(&self) -> Option<Participant> {
        None
    }

    fn certificate_codec_config(&self) {}

    fn max_certificate_size(_: u32) -> usize {
        32
    }

    fn assemble<I: Iterator<Item = Attestation<Self>>>(
        &self,
        _: NonEmpty<I>,
        _: &impl Strategy,
    ) -> Result<Bytes32, AssemblyError> {
        Err(AssemblyError)
    }
}

impl<D: Digest> CertificateVerifier<D> for Seats {
    type Certificate = Bytes32;

    fn verify_certificate<R: CryptoRng, E>(
        &self,
        _: &mut R,
        _: Subject<'_, D>,
        proof: &Bytes32,
        _: &impl Strategy,
    ) -> bool {
        self.accepts(proof)
    }
}

impl<D: Digest> Scheme<D> for Seats {}

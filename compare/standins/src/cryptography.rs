//! Digests, keys, and signature schemes as far as certificates name them.

use crate::codec::{EncodeSize, FixedSize, MaxEncodeSize, Read, Write};
use std::{fmt::Debug, hash::Hash, sync::Arc};

/// A value of fixed size that stands in certificates.
pub trait Leaf:
    Clone
    + Debug
    + Ord
    + Hash
    + Write
    + Read<Cfg = ()>
    + EncodeSize
    + FixedSize
    + MaxEncodeSize
    + Send
    + Sync
    + 'static
{
}

impl<T> Leaf for T where
    T: Clone
        + Debug
        + Ord
        + Hash
        + Write
        + Read<Cfg = ()>
        + EncodeSize
        + FixedSize
        + MaxEncodeSize
        + Send
        + Sync
        + 'static
{
}

pub trait Digest: Leaf + Copy {}

pub trait PublicKey: Leaf {}

pub trait Digestible {
    type Digest: Digest;

    fn digest(&self) -> Self::Digest;
}

impl<B: Digestible> Digestible for Arc<B> {
    type Digest = B::Digest;

    fn digest(&self) -> B::Digest {
        (**self).digest()
    }
}

/// A value with its digest.
pub struct Digested<B: Digestible> {
    inner: B,
}

impl<B: Digestible> Digested<B> {
    pub fn inner(&self) -> &B {
        &self.inner
    }
}

impl<B: Digestible> Digestible for Digested<B> {
    type Digest = B::Digest;

    fn digest(&self) -> B::Digest {
        self.inner.digest()
    }
}

impl<B: Digestible + Write> Write for Digested<B> {
    fn write(&self, buf: &mut impl crate::BufMut) {
        self.inner.write(buf);
    }
}

impl<B: Digestible + EncodeSize> EncodeSize for Digested<B> {
    fn encode_size(&self) -> usize {
        self.inner.encode_size()
    }
}

pub mod certificate {
    use super::{Hash, PublicKey};
    use crate::{
        Strategy,
        codec::{Buf, EncodeSize, Error, MaxEncodeSize, Read, Write},
        iter::NonEmpty,
        small::{Participant, ordered::Set},
    };
    use std::fmt::Debug;

    #[derive(Debug)]
    pub struct AssemblyError;

    /// A signature scheme.
    pub trait Scheme: Clone + Debug + Send + Sync + 'static {
        type PublicKey: PublicKey;
        type Signature: Clone + Debug + Send + Sync;
        type Certificate: Clone + Debug + Eq + Hash + Write + EncodeSize + Read + Send + Sync;

        fn participants(&self) -> &Set<Self::PublicKey>;

        fn me(&self) -> Option<Participant>;

        fn certificate_codec_config(&self) -> <Self::Certificate as Read>::Cfg;

        fn max_certificate_size(participants: u32) -> usize;

        fn assemble<I>(
            &self,
            attestations: NonEmpty<I>,
            strategy: &impl Strategy,
        ) -> Result<Self::Certificate, AssemblyError>
        where
            I: Iterator<Item = Attestation<Self>>;
    }

    /// One member's signature. None is ever made here.
    #[derive(Clone, Debug)]
    pub struct Attestation<S: Scheme> {
        pub signer: Participant,
        pub signature: S::Signature,
    }

    impl<S: Scheme> PartialEq for Attestation<S> {
        fn eq(&self, _: &Self) -> bool {
            unreachable!("no votes are compared")
        }
    }

    impl<S: Scheme> Eq for Attestation<S> {}

    impl<S: Scheme> Hash for Attestation<S> {
        fn hash<H: std::hash::Hasher>(&self, _: &mut H) {
            unreachable!("no vote is hashed")
        }
    }

    impl<S: Scheme> Write for Attestation<S> {
        fn write(&self, _: &mut impl crate::BufMut) {
            unreachable!("no vote is written")
        }
    }

    impl<S: Scheme> EncodeSize for Attestation<S> {
        fn encode_size(&self) -> usize {
            unreachable!("no vote is written")
        }
    }

    impl<S: Scheme> MaxEncodeSize for Attestation<S> {
        const MAX_ENCODE_SIZE: usize = 0;
    }

    impl<S: Scheme> Read for Attestation<S> {
        type Cfg = ();

        fn read_cfg(_: &mut impl Buf, _: &()) -> Result<Self, Error> {
            Err(Error::Invalid("Attestation", "no vote is read"))
        }
    }
}

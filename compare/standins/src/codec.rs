//! A codec of our own. What the leaves look like is not that of the published codec, so no bytes are compared.

use crate::bytes::{BufMut, Bytes};
use std::sync::Arc;

#[derive(Debug)]
pub enum Error {
    /// There are fewer bytes than a value needs.
    EndOfBuffer,
    /// There are bytes past the value.
    ExtraData,
    /// The bytes are no value of this type.
    Invalid(&'static str, &'static str),
}

/// Bytes that are read from the front.
pub trait Buf {
    fn take<const N: usize>(&mut self) -> Result<[u8; N], Error>;

    fn remaining(&self) -> usize;
}

impl Buf for Bytes {
    fn take<const N: usize>(&mut self) -> Result<[u8; N], Error> {
        let bytes = *self.first_chunk().ok_or(Error::EndOfBuffer)?;
        self.skip(N);
        Ok(bytes)
    }

    fn remaining(&self) -> usize {
        self.len()
    }
}

pub trait Write {
    fn write(&self, buf: &mut impl BufMut);
}

pub trait EncodeSize {
    fn encode_size(&self) -> usize;
}

pub trait FixedSize {
    const SIZE: usize;
}

pub trait MaxEncodeSize {
    const MAX_ENCODE_SIZE: usize;
}

pub trait Read: Sized {
    type Cfg;

    fn read_cfg(buf: &mut impl Buf, cfg: &Self::Cfg) -> Result<Self, Error>;
}

pub trait ReadExt: Read<Cfg = ()> {
    fn read(buf: &mut impl Buf) -> Result<Self, Error> {
        Self::read_cfg(buf, &())
    }
}

impl<T: Read<Cfg = ()>> ReadExt for T {}

pub trait Encode: Write + EncodeSize {
    fn encode(&self) -> Bytes {
        let mut bytes = Vec::with_capacity(self.encode_size());
        self.write(&mut bytes);
        Bytes::from(bytes)
    }
}

impl<T: Write + EncodeSize> Encode for T {}

pub trait Decode: Read {
    fn decode_cfg(mut buf: impl Buf, cfg: &Self::Cfg) -> Result<Self, Error> {
        let value = Self::read_cfg(&mut buf, cfg)?;
        if buf.remaining() == 0 {
            Ok(value)
        } else {
            Err(Error::ExtraData)
        }
    }
}

impl<T: Read> Decode for T {}

impl Write for u8 {
    fn write(&self, buf: &mut impl BufMut) {
        buf.put_slice(&[*self]);
    }
}

impl Read for u8 {
    type Cfg = ();

    fn read_cfg(buf: &mut impl Buf, _: &()) -> Result<Self, Error> {
        let [byte] = buf.take()?;
        Ok(byte)
    }
}

impl FixedSize for u8 {
    const SIZE: usize = 1;
}

impl Write for bool {
    fn write(&self, buf: &mut impl BufMut) {
        u8::from(*self).write(buf);
    }
}

impl Read for bool {
    type Cfg = ();

    fn read_cfg(buf: &mut impl Buf, _: &()) -> Result<Self, Error> {
        Ok(u8::read(buf)? != 0)
    }
}

impl EncodeSize for bool {
    fn encode_size(&self) -> usize {
        1
    }
}

impl<T: Write> Write for Arc<T> {
    fn write(&self, buf: &mut impl BufMut) {
        (**self).write(buf);
    }
}

impl<T: EncodeSize> EncodeSize for Arc<T> {
    fn encode_size(&self) -> usize {
        (**self).encode_size()
    }
}

impl<A: Write, B: Write> Write for (A, B) {
    fn write(&self, buf: &mut impl BufMut) {
        self.0.write(buf);
        self.1.write(buf);
    }
}

impl<A: EncodeSize, B: EncodeSize> EncodeSize for (A, B) {
    fn encode_size(&self) -> usize {
        self.0.encode_size() + self.1.encode_size()
    }
}

impl<A: MaxEncodeSize, B: MaxEncodeSize> MaxEncodeSize for (A, B) {
    const MAX_ENCODE_SIZE: usize = A::MAX_ENCODE_SIZE + B::MAX_ENCODE_SIZE;
}

impl<A: Read, B: Read> Read for (A, B) {
    type Cfg = (A::Cfg, B::Cfg);

    fn read_cfg(buf: &mut impl Buf, cfg: &Self::Cfg) -> Result<Self, Error> {
        Ok((A::read_cfg(buf, &cfg.0)?, B::read_cfg(buf, &cfg.1)?))
    }
}

pub mod varint {
    use super::{Buf, BufMut, EncodeSize, Error, MaxEncodeSize, Read, Write};

    /// A number in eight bytes: how many the published codec takes plays no part here.
    pub struct UInt<T>(pub T);

    impl From<UInt<u64>> for u64 {
        fn from(number: UInt<u64>) -> Self {
            number.0
        }
    }

    impl Write for UInt<u64> {
        fn write(&self, buf: &mut impl BufMut) {
            buf.put_slice(&self.0.to_be_bytes());
        }
    }

    impl Read for UInt<u64> {
        type Cfg = ();

        fn read_cfg(buf: &mut impl Buf, _: &()) -> Result<Self, Error> {
            Ok(Self(u64::from_be_bytes(buf.take()?)))
        }
    }

    impl EncodeSize for UInt<u64> {
        fn encode_size(&self) -> usize {
            8
        }
    }

    impl MaxEncodeSize for UInt<u64> {
        const MAX_ENCODE_SIZE: usize = 8;
    }
}

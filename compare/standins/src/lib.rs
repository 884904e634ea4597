//! What the compared sources name of other crates, and no more. One crate stands in for all of them: `run` makes a
//! crate of each name that passes this one on, so the names of all of them stand at its top.

mod actor;
mod bytes;
mod codec;
mod cryptography;
mod macros;
mod parallel;
mod peers;
mod requests;
mod runtime;
mod small;
mod tracing;

pub use actor::{Feedback, mailbox};
pub use bytes::{BufMut, Bytes};
pub use codec::{
    Buf, Decode, Encode, EncodeSize, Error, FixedSize, MaxEncodeSize, Read, ReadExt, Write, varint,
};
pub use cryptography::{Digest, Digested, Digestible, PublicKey, certificate};
pub use parallel::Strategy;
pub use peers::{Blocker, Receiver, Sender, utils};
pub use requests::{Consumer, Delivery, Fetch, Outcome, Resolution, Resolver, TargetedResolver, p2p};
pub use runtime::{Clock, ContextCell, CryptoRng, Handle, Metrics, Spawner, telemetry};
pub use small::{NonZeroDuration, Participant, channel, iter, max, ordered, sequence, vec};
pub use tracing::Span;

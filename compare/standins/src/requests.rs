//! The board's side: fetches, and what is said of deliveries.

use crate::{Feedback, Span, channel::oneshot, vec::NonEmptyVec};

#[derive(Debug)]
pub struct Fetch<K, S> {
    pub key: K,
    pub subscriber: S,
    pub span: Span,
}

#[derive(Clone, Copy, Debug, PartialEq, Eq)]
pub enum Outcome {
    Ignored,
    Invalid,
    Unresolved,
    Resolved(Resolution),
}

#[derive(Clone, Copy, Debug, PartialEq, Eq)]
pub enum Resolution {
    Complete,
    Partial,
}

pub trait Resolver {
    type Key;
    type Subscriber;

    fn fetch(&mut self, fetch: Fetch<Self::Key, Self::Subscriber>) -> Feedback;

    fn fetch_all(&mut self, fetches: Vec<Fetch<Self::Key, Self::Subscriber>>) -> Feedback;

    fn retain(&mut self, kept: impl Fn(&Self::Key, &Self::Subscriber) -> bool + Send + 'static) -> Feedback;
}

pub trait TargetedResolver: Resolver {
    type PublicKey;

    fn fetch_targeted(
        &mut self,
        fetch: Fetch<Self::Key, Self::Subscriber>,
        targets: NonEmptyVec<Self::PublicKey>,
    ) -> Feedback;
}

pub struct Delivery<K, S> {
    pub key: K,
    pub subscribers: NonEmptyVec<(S, Span)>,
}

pub trait Consumer {
    type Key;
    type Value;
    type Subscriber;
    type Outcome;

    fn deliver(
        &mut self,
        delivery: Delivery<Self::Key, Self::Subscriber>,
        value: Self::Value,
    ) -> oneshot::Receiver<Self::Outcome>;
}

pub mod p2p {
    use crate::{Bytes, NonZeroDuration, channel::oneshot};
    use std::{num::NonZeroUsize, time::Duration};

    pub trait Producer {
        type Key;

        fn produce(&mut self, key: Self::Key) -> oneshot::Receiver<Bytes>;
    }

    pub struct Config<P, B, C, R, K> {
        pub peer_provider: P,
        pub blocker: B,
        pub consumer: C,
        pub producer: R,
        pub mailbox_size: NonZeroUsize,
        pub me: Option<K>,
        pub fetch_timeout: NonZeroDuration,
        pub fetch_retry_delay: Duration,
        pub priority_requests: bool,
        pub priority_responses: bool,
    }

    /// The engine that sends asks. It is not compared, and never made.
    pub struct Engine;

    impl Engine {
        pub fn new<X, P, B, C, R, K>(_context: X, _config: Config<P, B, C, R, K>) -> (Self, ()) {
            unreachable!("no engine is started")
        }

        pub fn start<N>(self, _network: N) {}
    }
}

//! Peers, as far as signatures of functions name them.

pub trait Blocker {
    type PublicKey;
}

pub trait Sender {
    type PublicKey;
}

pub trait Receiver {
    type PublicKey;

    fn capacity(&self) -> std::num::NonZeroUsize;
}

pub mod utils {
    pub struct StaticProvider;

    impl StaticProvider {
        pub fn new<P>(_id: u64, _peers: P) -> Self {
            Self
        }
    }
}

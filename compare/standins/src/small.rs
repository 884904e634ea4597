//! Small types and functions.

pub use std::time::Duration as NonZeroDuration;

/// The larger of two numbers, where a constant is computed.
pub const fn max(a: usize, b: usize) -> usize {
    if a < b { b } else { a }
}

/// A member's place in its set.
#[derive(Clone, Copy, Debug, PartialEq, Eq, Hash)]
pub struct Participant(u32);

impl Participant {
    pub fn index(self) -> Self {
        self
    }
}

impl From<Participant> for usize {
    fn from(member: Participant) -> Self {
        member.0 as Self
    }
}

pub mod ordered {
    use super::Participant;

    #[derive(Clone, Debug)]
    pub struct Set<K>(pub Vec<K>);

    pub trait Quorum {
        type Item;

        fn key(&self, member: Participant) -> Option<&Self::Item>;
    }

    impl<K> Quorum for Set<K> {
        type Item = K;

        fn key(&self, member: Participant) -> Option<&K> {
            self.0.get(usize::from(member))
        }
    }
}

pub mod sequence {
    /// A key of the board: a view.
    #[derive(Clone, Copy, Debug, PartialEq, Eq, PartialOrd, Ord)]
    pub struct U64(u64);

    impl From<u64> for U64 {
        fn from(number: u64) -> Self {
            Self(number)
        }
    }

    impl From<U64> for u64 {
        fn from(key: U64) -> Self {
            key.0
        }
    }

    impl From<&U64> for u64 {
        fn from(key: &U64) -> Self {
            key.0
        }
    }
}

pub mod vec {
    use std::num::NonZeroUsize;

    #[derive(Clone, Debug)]
    pub struct NonEmptyVec<T>(Vec<T>);

    impl<T> NonEmptyVec<T> {
        pub fn new(first: T) -> Self {
            Self(vec![first])
        }

        /// None if there is nothing in the list.
        pub fn of(all: Vec<T>) -> Option<Self> {
            (!all.is_empty()).then_some(Self(all))
        }

        pub fn first(&self) -> &T {
            &self.0[0]
        }

        pub fn len(&self) -> NonZeroUsize {
            NonZeroUsize::new(self.0.len()).expect("there is a first one")
        }

        pub fn iter(&self) -> std::slice::Iter<'_, T> {
            self.0.iter()
        }

        pub fn map_into<U>(self, turn: impl FnMut(T) -> U) -> NonEmptyVec<U> {
            NonEmptyVec(self.0.into_iter().map(turn).collect())
        }
    }
}

pub mod iter {
    /// An iterator that gives at least one item.
    pub struct NonEmpty<I: Iterator> {
        first: I::Item,
        rest: I,
    }

    impl<I: Iterator> NonEmpty<I> {
        pub fn new(first: I::Item, rest: I) -> Self {
            Self { first, rest }
        }

        pub fn of(mut rest: I) -> Self {
            let first = rest.next().expect("there is a first one");
            Self { first, rest }
        }

        pub fn into_parts(self) -> (I::Item, I) {
            (self.first, self.rest)
        }
    }

    impl<I: Iterator> IntoIterator for NonEmpty<I> {
        type Item = I::Item;
        type IntoIter = std::iter::Chain<std::iter::Once<I::Item>, I>;

        fn into_iter(self) -> Self::IntoIter {
            std::iter::once(self.first).chain(self.rest)
        }
    }
}

pub mod channel {
    pub mod oneshot {
        use std::{
            cell::RefCell,
            rc::{Rc, Weak},
        };

        /// One answer, if any.
        #[derive(Debug)]
        pub struct Sender<T>(Weak<RefCell<Option<T>>>);

        #[derive(Debug)]
        pub struct Receiver<T>(Rc<RefCell<Option<T>>>);

        pub fn channel<T>() -> (Sender<T>, Receiver<T>) {
            let place = Rc::new(RefCell::new(None));
            (Sender(Rc::downgrade(&place)), Receiver(place))
        }

        impl<T> Sender<T> {
            /// Whether nobody waits for the answer any more.
            pub fn is_closed(&self) -> bool {
                self.0.strong_count() == 0
            }

            pub(crate) fn put(self, answer: T) -> bool {
                self.0
                    .upgrade()
                    .is_some_and(|place| place.replace(Some(answer)).is_none())
            }
        }

        impl<T> Receiver<T> {
            /// The answer, or none if the sender was dropped.
            pub fn take(self) -> Option<T> {
                self.0.take()
            }
        }
    }

    pub mod fallible {
        use super::oneshot::Sender;

        pub trait OneshotExt<T> {
            /// Sends the answer, to nobody if nobody waits.
            fn send_lossy(self, answer: T) -> bool;
        }

        impl<T> OneshotExt<T> for Sender<T> {
            fn send_lossy(self, answer: T) -> bool {
                self.put(answer)
            }
        }
    }
}

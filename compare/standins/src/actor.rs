//! A mailbox with an overflow. Nothing is ever sent through one here: messages go to the overflow directly.

/// Whether a message was queued.
pub struct Feedback;

pub mod mailbox {
    use super::Feedback;
    use std::marker::PhantomData;

    /// What holds messages once a mailbox is full.
    pub trait Overflow<T>: Default {
        fn is_empty(&self) -> bool;

        /// Hands messages on, one after the other, until one comes back.
        fn drain<F>(&mut self, push: F)
        where
            F: FnMut(T) -> Option<T>;
    }

    /// Messages that say what an overflow makes of them.
    pub trait Policy: Sized {
        type Overflow: Overflow<Self>;

        fn handle(overflow: &mut Self::Overflow, message: Self);
    }

    pub struct Sender<T>(PhantomData<fn(T)>);

    impl<T> Clone for Sender<T> {
        fn clone(&self) -> Self {
            Self(PhantomData)
        }
    }

    impl<T> Sender<T> {
        pub fn enqueue(&self, _message: T) -> Feedback {
            Feedback
        }
    }

    pub struct Receiver<T>(PhantomData<fn() -> T>);

    pub fn new<C, N, T>(_context: C, _capacity: N) -> (Sender<T>, Receiver<T>) {
        (Sender(PhantomData), Receiver(PhantomData))
    }
}

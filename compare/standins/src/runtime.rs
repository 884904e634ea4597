//! A context that does nothing.

use std::marker::PhantomData;

pub trait Clock {}

pub trait CryptoRng {}

pub trait Spawner {}

pub trait Metrics {
    /// A context of a part, under a label.
    fn child(&self, label: &str) -> Self;
}

pub struct ContextCell<E>(E);

impl<E> ContextCell<E> {
    pub fn new(context: E) -> Self {
        Self(context)
    }
}

impl<E: Metrics> ContextCell<E> {
    pub fn child(&self, label: &str) -> E {
        self.0.child(label)
    }
}

impl<E> AsRef<E> for ContextCell<E> {
    fn as_ref(&self) -> &E {
        &self.0
    }
}

impl<E> AsMut<E> for ContextCell<E> {
    fn as_mut(&mut self) -> &mut E {
        &mut self.0
    }
}

pub struct Handle<T>(PhantomData<T>);

pub mod telemetry {
    pub mod traces {
        pub trait TracedExt {
            fn traced(self) -> i64;
        }

        impl TracedExt for u64 {
            fn traced(self) -> i64 {
                self as i64
            }
        }
    }
}

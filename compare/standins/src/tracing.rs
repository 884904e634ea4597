//! Spans that trace nothing.

#[derive(Clone, Debug)]
pub struct Span;

impl Span {
    pub fn entered(self) -> Self {
        self
    }

    pub fn in_scope<T>(&self, run: impl FnOnce() -> T) -> T {
        run()
    }
}

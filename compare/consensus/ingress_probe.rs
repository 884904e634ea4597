// What follows is ours: it counts what waits.

impl<S: Scheme, D: Digest> Pending<S, D> {
    /// Whether a finalization is held, and how many other messages wait.
    pub(crate) fn waiting(&self) -> (bool, usize) {
        (self.finalization.is_some(), self.messages.len())
    }
}

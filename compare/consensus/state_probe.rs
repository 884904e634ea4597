// What follows is ours: it looks into a state.

impl State {
    /// A state with the same contents.
    pub(crate) fn copy(&self) -> Self {
        Self {
            term_length: self.term_length,
            current_view: self.current_view,
            floor: self.floor,
            cursor: self.cursor,
            finalization: self.finalization.clone(),
            nullifications: self.nullifications.clone(),
            pending_notarizations: self.pending_notarizations.clone(),
            certified_notarizations: self.certified_notarizations.clone(),
            uncertifiable_notarizations: self.uncertifiable_notarizations.clone(),
            replaying: self.replaying,
        }
    }
}

fn listed<'a>(views: impl Iterator<Item = &'a View>) -> String {
    let views: Vec<_> = views.map(View::to_string).collect();
    if views.is_empty() {
        "-".into()
    } else {
        views.join(",")
    }
}

impl std::fmt::Display for State {
    fn fmt(&self, f: &mut std::fmt::Formatter<'_>) -> std::fmt::Result {
        write!(
            f,
            "floor {} current {} cursor {} finalized {} replay {} nullifications {} pending {} certified {} failed {}",
            self.floor,
            self.current_view,
            self.cursor,
            self.last_finalized(),
            if self.replaying { "yes" } else { "no" },
            listed(self.nullifications.keys()),
            listed(self.pending_notarizations.iter()),
            listed(self.certified_notarizations.keys()),
            listed(self.uncertifiable_notarizations.iter()),
        )
    }
}


// What follows is ours: it opens the private calls to the rest of this crate, for the member that is run.

use crate::simplex::{
    machine::{Member, board::Board},
    scheme::{Bytes32, Seat, Seats},
};

impl Member {
    pub(crate) fn held(&self) -> &State {
        &self.state
    }

    pub(crate) fn call_updated(&mut self, board: &mut Board, certificate: &Certificate<Seats, Bytes32>) {
        self.updated(board, certificate);
    }

    pub(crate) fn call_certified(
        &mut self,
        board: &mut Board,
        notarization: Notarization<Seats, Bytes32>,
        success: bool,
    ) {
        self.certified(board, notarization, success);
    }

    pub(crate) fn call_replayed(&mut self, board: &mut Board) {
        self.replayed(board);
    }

    pub(crate) fn call_resolve(
        &self,
        board: &mut Board,
        proposal: View,
        view: View,
        kind: Kind,
        target: Option<Seat>,
    ) {
        self.resolve(board, proposal, view, kind, target);
    }

    pub(crate) fn call_handle(
        &mut self,
        message: HandlerMessage,
        voter: &mut voter::Mailbox<Seats, Bytes32>,
        board: &mut Board,
    ) {
        self.handle_resolver(message, voter, board);
    }
}

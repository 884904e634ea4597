//! The board that the comparison runs with: a set of open asks, with the limits and the refusal of a member's board.

use crate::simplex::{
    actors::{Ask, Kind, Until},
    scheme::Seat,
};
use commonware_actor::Feedback;
use commonware_resolver::{Fetch, Resolver, TargetedResolver};
use commonware_utils::{sequence::U64, vec::NonEmptyVec};
use std::collections::BTreeMap;

const BACKGROUND: usize = 256;
const ANCESTRY: usize = 64;

/// Open asks by view and rank, with the seat that is asked.
#[derive(Default)]
pub(crate) struct Board {
    pub asks: BTreeMap<(u64, u8), Option<u32>>,
    background: usize,
    /// How many requests came.
    pub requests: u64,
    /// Whether the last one found no place.
    pub refused: bool,
}

/// In which order asks of one view stand.
fn rank(ask: &Ask) -> u8 {
    match (ask.until, ask.kind) {
        (Until::Floor, Kind::Nullification) => 0,
        (Until::Finalization, Kind::Nullification) => 1,
        (Until::Finalization, Kind::Notarization) => 2,
        (Until::Floor, Kind::Notarization) => unreachable!("background wants a nullification"),
    }
}

pub(super) fn ask(rank: u8) -> Ask {
    match rank {
        0 => Ask::backfill(),
        1 => Ask::ancestry(Kind::Nullification),
        _ => Ask::ancestry(Kind::Notarization),
    }
}

impl Board {
    fn background(&mut self, view: u64) {
        if self.background < BACKGROUND && self.asks.insert((view, 0), None).is_none() {
            self.background += 1;
        }
    }

    fn ancestry(&mut self, view: u64, rank: u8, target: Option<u32>) {
        self.requests += 1;
        if let Some(held) = self.asks.get_mut(&(view, rank)) {
            if target.is_none() {
                *held = None;
            }
        } else if self.asks.len() - self.background < ANCESTRY {
            self.asks.insert((view, rank), target);
        } else {
            self.refused = true;
        }
    }

    fn open(&mut self, fetch: Fetch<U64, Ask>, target: Option<u32>) {
        let view = u64::from(fetch.key);
        match rank(&fetch.subscriber) {
            0 => self.background(view),
            rank => self.ancestry(view, rank, target),
        }
    }
}

impl Resolver for Board {
    type Key = U64;
    type Subscriber = Ask;

    fn fetch(&mut self, fetch: Fetch<U64, Ask>) -> Feedback {
        self.open(fetch, None);
        Feedback
    }

    fn fetch_all(&mut self, fetches: Vec<Fetch<U64, Ask>>) -> Feedback {
        for fetch in fetches {
            self.open(fetch, None);
        }
        Feedback
    }

    fn retain(&mut self, kept: impl Fn(&U64, &Ask) -> bool + Send + 'static) -> Feedback {
        self.asks
            .retain(|(view, rank), _| kept(&U64::from(*view), &ask(*rank)));
        self.background = self.asks.keys().filter(|(_, rank)| *rank == 0).count();
        Feedback
    }
}

impl TargetedResolver for Board {
    type PublicKey = Seat;

    fn fetch_targeted(&mut self, fetch: Fetch<U64, Ask>, targets: NonEmptyVec<Seat>) -> Feedback {
        self.open(fetch, Some(targets.first().0));
        Feedback
    }
}

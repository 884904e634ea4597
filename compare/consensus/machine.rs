//! One member over the published sources, driven call by call.

pub(crate) mod board;

use crate::{
    simplex::{
        actors::{
            Kind,
            resolver::{
                Config,
                actor::Actor,
                ingress::{HandlerMessage, MailboxMessage, Pending},
                state::{Effect, FetchReason, State},
            },
            voter,
        },
        scheme::{Bytes32, Seat, Seats},
        types::{self, Proposal},
    },
    types::{Epoch, Round, TermLength, View},
};
use board::Board;
use bytes::Bytes;
use commonware_actor::mailbox::{Overflow, Policy};
use commonware_codec::{Decode, Encode};
use commonware_p2p::Blocker;
use commonware_parallel::Strategy;
use commonware_resolver::{Outcome, Resolution};
use commonware_runtime::{Clock, Metrics, Spawner};
use commonware_utils::{channel::oneshot, ordered::Set, vec::NonEmptyVec};
use rand_core::CryptoRng;
use std::{
    fmt::{Display, Formatter},
    num::{NonZeroU32, NonZeroUsize},
    time::Duration,
};
use tracing::Span;

pub use crate::simplex::scheme;

pub type Certificate = types::Certificate<Seats, Bytes32>;
pub type Notarization = types::Notarization<Seats, Bytes32>;
pub type Nullification = types::Nullification<Seats>;
pub type Finalization = types::Finalization<Seats, Bytes32>;

/// A context that does nothing.
pub struct Nothing;

impl Clock for Nothing {}
impl CryptoRng for Nothing {}
impl Spawner for Nothing {}

impl Metrics for Nothing {
    fn child(&self, _: &str) -> Self {
        Self
    }
}

pub struct NoBlocker;

impl Blocker for NoBlocker {
    type PublicKey = Seat;
}

pub struct OneThread;

impl Strategy for OneThread {}

/// The actor, with what it is run over here.
pub(crate) type Member = Actor<Nothing, Seats, NoBlocker, Bytes32, OneThread>;

/// A call that a member makes at once, or that waits in its queue.
#[derive(Clone, Debug)]
pub enum Call {
    Updated(Certificate),
    Certified(bool, Notarization),
    Replayed,
    Resolve {
        proposal: u64,
        view: u64,
        notarization: bool,
        target: Option<u32>,
    },
}

/// A delivery, and where its outcome will stand.
pub struct Delivery {
    message: HandlerMessage,
    answer: oneshot::Receiver<Outcome>,
}

impl Delivery {
    /// Encoded bytes for a view, with asks by rank; none without an ask.
    pub fn new(view: u64, data: Bytes, asks: &[u8]) -> Option<Self> {
        let asks = asks.iter().map(|rank| board::ask(*rank)).collect();
        let (response, answer) = oneshot::channel();
        let message = HandlerMessage::Deliver {
            span: Span,
            view: View::new(view),
            data,
            asks: NonEmptyVec::of(asks)?,
            response,
        };
        Some(Self { message, answer })
    }
}

/// What became of a delivery.
#[derive(Clone, Copy, Debug, PartialEq, Eq)]
pub enum Judged {
    Ignored,
    Invalid,
    Unresolved,
    Partial,
    Complete,
    LetGo,
}

impl Display for Judged {
    fn fmt(&self, f: &mut Formatter<'_>) -> std::fmt::Result {
        f.write_str(match self {
            Self::Ignored => "ignored",
            Self::Invalid => "invalid",
            Self::Unresolved => "unresolved",
            Self::Partial => "partial",
            Self::Complete => "complete",
            Self::LetGo => "let go",
        })
    }
}

/// What became of a request.
#[derive(Clone, Copy, Debug, PartialEq, Eq)]
pub enum Requested {
    Asked,
    NotNeeded,
    Refused,
}

/// Effects as a script shows them.
pub struct Effects(Vec<Effect>);

impl Effects {
    pub fn len(&self) -> usize {
        self.0.len()
    }
}

impl Display for Effects {
    fn fmt(&self, f: &mut Formatter<'_>) -> std::fmt::Result {
        for (i, effect) in self.0.iter().enumerate() {
            f.write_str(if i == 0 { " " } else { ", " })?;
            match effect {
                Effect::Fetch { view, cause, reason } => {
                    let reason = match reason {
                        FetchReason::MissingNullification => "missing_nullification",
                        FetchReason::CertificationFailed => "certification_failed",
                    };
                    write!(f, "fetch {view} {cause} {reason}")?;
                }
                Effect::Settled { kind, start, end } => {
                    write!(f, "settled {} {start} {end}", name(*kind))?;
                }
                Effect::Finalized(view) => write!(f, "finalized {view}")?,
                Effect::Raised(view) => write!(f, "raised {view}")?,
            }
        }
        Ok(())
    }
}

fn name(kind: Kind) -> &'static str {
    match kind {
        Kind::Nullification => "nullification",
        Kind::Notarization => "notarization",
    }
}

fn kind(notarization: bool) -> Kind {
    if notarization {
        Kind::Notarization
    } else {
        Kind::Nullification
    }
}

/// One member: the actor, with a board, a queue, and a place for what deliveries recover.
pub struct Machine {
    actor: Member,
    voter: voter::Mailbox<Seats, Bytes32>,
    board: Board,
    queue: Pending<Seats, Bytes32>,
}

impl Machine {
    pub fn new(length: NonZeroU32, epoch: u64, seats: u64, quorum: u64) -> Self {
        let (actor, _) = Actor::new(
            Nothing,
            Config {
                scheme: Seats {
                    seats,
                    quorum,
                    none: Set(Vec::new()),
                },
                blocker: NoBlocker,
                strategy: OneThread,
                epoch: Epoch::new(epoch),
                mailbox_size: NonZeroUsize::MIN,
                fetch_timeout: Duration::ZERO,
                fetch_retry_delay: Duration::ZERO,
                term_length: TermLength::new(length),
            },
        );
        Self {
            actor,
            voter: voter::Mailbox(None),
            board: Board::default(),
            queue: Pending::default(),
        }
    }

    /// Makes a call; tells what became of a request.
    pub fn call(&mut self, call: Call) -> Requested {
        match call {
            Call::Updated(certificate) => {
                self.actor.call_updated(&mut self.board, &certificate);
                Requested::Asked
            }
            Call::Certified(success, notarization) => {
                self.actor.call_certified(&mut self.board, notarization, success);
                Requested::Asked
            }
            Call::Replayed => {
                self.actor.call_replayed(&mut self.board);
                Requested::Asked
            }
            Call::Resolve {
                proposal,
                view,
                notarization,
                target,
            } => self.resolve(proposal, view, kind(notarization), target),
        }
    }

    fn resolve(&mut self, proposal: u64, view: u64, kind: Kind, target: Option<u32>) -> Requested {
        let before = self.board.requests;
        self.board.refused = false;
        self.actor.call_resolve(
            &mut self.board,
            View::new(proposal),
            View::new(view),
            kind,
            target.map(Seat),
        );
        if self.board.refused {
            Requested::Refused
        } else if self.board.requests == before {
            Requested::NotNeeded
        } else {
            Requested::Asked
        }
    }

    /// The state as it is before a call.
    pub fn before(&self) -> Before {
        Before(self.actor.held().copy())
    }

    /// Hands a delivery over. The certificate comes back if it was taken.
    pub fn deliver(&mut self, delivery: Delivery) -> (Judged, Option<Certificate>) {
        let Delivery { message, answer } = delivery;
        self.actor.call_handle(message, &mut self.voter, &mut self.board);
        let judged = match answer.take() {
            Some(Outcome::Ignored) => Judged::Ignored,
            Some(Outcome::Invalid) => Judged::Invalid,
            Some(Outcome::Unresolved) => Judged::Unresolved,
            Some(Outcome::Resolved(Resolution::Partial)) => Judged::Partial,
            Some(Outcome::Resolved(Resolution::Complete)) => Judged::Complete,
            None => Judged::LetGo,
        };
        (judged, self.voter.0.take())
    }

    pub fn settled(&self, view: u64, notarization: bool) -> bool {
        self.actor.held().settled(View::new(view), kind(notarization))
    }

    /// The encoded certificate that is served for a view, through the message that a peer's question comes in.
    pub fn produce(&mut self, view: u64) -> Option<Bytes> {
        let (response, receiver) = oneshot::channel();
        let message = HandlerMessage::Produce {
            view: View::new(view),
            response,
        };
        self.actor.call_handle(message, &mut self.voter, &mut self.board);
        receiver.take()
    }

    /// The same, without a message.
    pub fn serve(&self, view: u64) -> Option<Bytes> {
        self.actor.held().produce(View::new(view))
    }

    pub fn state(&self) -> &impl Display {
        self.actor.held()
    }

    /// Open asks by view and rank, with their targets.
    pub fn asks(&self) -> impl Iterator<Item = (u64, u8, Option<u32>)> {
        self.board
            .asks
            .iter()
            .map(|((view, rank), target)| (*view, *rank, *target))
    }

    /// Offers a call to the queue.
    pub fn offer(&mut self, call: Call) {
        let span = Span;
        let message = match call {
            Call::Updated(certificate) => MailboxMessage::Updated { span, certificate },
            Call::Certified(success, notarization) => MailboxMessage::Certified {
                span,
                notarization,
                success,
            },
            Call::Replayed => MailboxMessage::Replayed { span },
            Call::Resolve {
                proposal,
                view,
                notarization,
                target,
            } => MailboxMessage::Resolve {
                span,
                proposal: View::new(proposal),
                view: View::new(view),
                kind: kind(notarization),
                target: target.map(Seat),
            },
        };
        Policy::handle(&mut self.queue, message);
    }

    /// Takes at most so many calls out of the queue.
    pub fn drain(&mut self, most: usize) -> Vec<Call> {
        let mut calls = Vec::new();
        self.queue.drain(|message| {
            if calls.len() == most {
                return Some(message);
            }
            calls.push(match message {
                MailboxMessage::Updated { certificate, .. } => Call::Updated(certificate),
                MailboxMessage::Certified {
                    notarization,
                    success,
                    ..
                } => Call::Certified(success, notarization),
                MailboxMessage::Replayed { .. } => Call::Replayed,
                MailboxMessage::Resolve {
                    proposal,
                    view,
                    kind,
                    target,
                    ..
                } => Call::Resolve {
                    proposal: proposal.get(),
                    view: view.get(),
                    notarization: kind == Kind::Notarization,
                    target: target.map(|seat| seat.0),
                },
            });
            None
        });
        calls
    }

    pub fn waiting(&self) -> (bool, usize) {
        self.queue.waiting()
    }
}

/// A copy of a state. The calls hand their effects to the board alone, so the copy is asked for them.
pub struct Before(State);

impl Before {
    /// The effects of a call on the state that was copied.
    pub fn effects(mut self, call: &Call) -> Effects {
        Effects(match call {
            Call::Updated(certificate) => self.0.updated(certificate),
            Call::Certified(success, notarization) => self.0.certified(notarization.clone(), *success),
            Call::Replayed => self.0.replayed(),
            Call::Resolve { .. } => Vec::new(),
        })
    }
}

/// The fields that a notarization and a finalization have.
#[derive(Clone, Copy, Debug, PartialEq, Eq)]
pub struct Fields {
    pub epoch: u64,
    pub view: u64,
    pub parent: u64,
    pub payload: [u8; 32],
    pub proof: [u8; 32],
}

impl Fields {
    fn round(&self) -> Round {
        Round::new(Epoch::new(self.epoch), View::new(self.view))
    }

    fn proposal(&self) -> Proposal<Bytes32> {
        Proposal::new(self.round(), View::new(self.parent), Bytes32(self.payload))
    }

    pub fn notarization(&self) -> Notarization {
        Notarization {
            proposal: self.proposal(),
            certificate: Bytes32(self.proof),
        }
    }

    pub fn nullification(&self) -> Certificate {
        Certificate::Nullification(Nullification {
            round: self.round(),
            certificate: Bytes32(self.proof),
        })
    }

    pub fn finalization(&self) -> Certificate {
        Certificate::Finalization(Finalization {
            proposal: self.proposal(),
            certificate: Bytes32(self.proof),
        })
    }

    fn of(proposal: &Proposal<Bytes32>, proof: &Bytes32) -> Self {
        Self {
            epoch: proposal.round.epoch().get(),
            view: proposal.round.view().get(),
            parent: proposal.parent.get(),
            payload: proposal.payload.0,
            proof: proof.0,
        }
    }
}

/// The number of a certificate's kind, and its fields; those that a nullification lacks are zero.
pub fn fields(certificate: &Certificate) -> (u8, Fields) {
    match certificate {
        Certificate::Notarization(it) => (1, Fields::of(&it.proposal, &it.certificate)),
        Certificate::Nullification(it) => {
            let none = Proposal::new(it.round, View::zero(), Bytes32([0; 32]));
            (2, Fields::of(&none, &it.certificate))
        }
        Certificate::Finalization(it) => (3, Fields::of(&it.proposal, &it.certificate)),
    }
}

pub fn encoded(certificate: &Certificate) -> Bytes {
    certificate.encode()
}

pub fn decoded(bytes: Bytes) -> Certificate {
    Certificate::decode_cfg(bytes, &()).expect("a certificate was served")
}

/// Bytes that no certificate is encoded as.
pub fn undecodable() -> Bytes {
    Bytes::from(vec![0xff])
}

/// The first and last view of a term, and the first one of the next.
pub fn term(length: NonZeroU32, view: u64) -> (u64, u64, u64) {
    let (length, view) = (TermLength::new(length), View::new(view));
    (
        view.term_start(length).get(),
        view.term_end(length).get(),
        view.next_term_start(length).get(),
    )
}

pub fn covers(length: NonZeroU32, nullified: u64, view: u64) -> bool {
    View::new(nullified).covers(View::new(view), TermLength::new(length))
}

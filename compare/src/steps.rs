//! Steps of the program bench, and their stream (docs/bench.md).

/// What a step asks for; the numbers of the kinds are those of the stream.
#[derive(Clone, Copy)]
pub enum Step {
    Updated {
        kind: u8,
        view: u64,
    },
    Certified {
        success: bool,
        view: u64,
    },
    Replayed,
    Resolve {
        proposal: u64,
        view: u64,
        notarization: bool,
        target: Option<u32>,
    },
    /// The asks are bits: 1 background, 2 for a nullification, 4 for a notarization.
    Deliver {
        view: u64,
        asks: u8,
        kind: u8,
        at: u64,
    },
    Settled {
        view: u64,
        notarization: bool,
    },
    Produce {
        view: u64,
    },
    Drain {
        most: u64,
    },
}

/// A step, and whether it is offered to the queue.
#[derive(Clone, Copy)]
pub struct Taken {
    pub step: Step,
    pub offered: bool,
}

pub const NOTARIZATION: u8 = 1;
pub const NULLIFICATION: u8 = 2;
pub const FINALIZATION: u8 = 3;

const NO_TARGET: u32 = u32::MAX;

/// Steps that one member carries out several times over, each time at views that are higher by `span`.
#[derive(Clone)]
pub struct Mix {
    pub name: &'static str,
    pub length: u32,
    pub span: u64,
    pub passes: u64,
    pub steps: Vec<Taken>,
}

pub const EPOCH: u64 = 7;

impl Taken {
    /// The same step of a later pass.
    pub fn shifted(self, by: u64) -> Self {
        let step = match self.step {
            Step::Updated { kind, view } => Step::Updated {
                kind,
                view: view + by,
            },
            Step::Certified { success, view } => Step::Certified {
                success,
                view: view + by,
            },
            Step::Resolve {
                proposal,
                view,
                notarization,
                target,
            } => Step::Resolve {
                proposal: proposal + by,
                view: view + by,
                notarization,
                target,
            },
            Step::Deliver { view, asks, kind, at } => Step::Deliver {
                view: view + by,
                asks,
                kind,
                at: at + by,
            },
            Step::Settled { view, notarization } => Step::Settled {
                view: view + by,
                notarization,
            },
            Step::Produce { view } => Step::Produce { view: view + by },
            Step::Replayed | Step::Drain { .. } => self.step,
        };
        Self { step, ..self }
    }

    fn bytes(self) -> [u8; 24] {
        let (operation, kind, asks, seat, first, second) = match self.step {
            Step::Updated { kind, view } => (1, kind, 0, NO_TARGET, view, 0),
            Step::Certified { success, view } => {
                (if success { 2 } else { 3 }, NOTARIZATION, 0, NO_TARGET, view, 0)
            }
            Step::Replayed => (4, 0, 0, NO_TARGET, 0, 0),
            Step::Resolve {
                proposal,
                view,
                notarization,
                target,
            } => (
                5,
                u8::from(notarization),
                0,
                target.unwrap_or(NO_TARGET),
                view,
                proposal,
            ),
            Step::Deliver { view, asks, kind, at } => (6, kind, asks, NO_TARGET, view, at),
            Step::Settled { view, notarization } => (7, u8::from(notarization), 0, NO_TARGET, view, 0),
            Step::Produce { view } => (8, 0, 0, NO_TARGET, view, 0),
            Step::Drain { most } => (9, 0, 0, NO_TARGET, most, 0),
        };
        let mut bytes = [0; 24];
        bytes[..4].copy_from_slice(&[operation, kind, asks, u8::from(self.offered)]);
        bytes[4..8].copy_from_slice(&seat.to_be_bytes());
        bytes[8..16].copy_from_slice(&first.to_be_bytes());
        bytes[16..].copy_from_slice(&second.to_be_bytes());
        bytes
    }
}

impl Mix {
    /// The bytes that the program bench reads.
    pub fn stream(&self, list: bool) -> Vec<u8> {
        let mut bytes = Vec::with_capacity(32 + 24 * self.steps.len());
        bytes.extend(self.length.to_be_bytes());
        bytes.extend(u32::from(list).to_be_bytes());
        bytes.extend(EPOCH.to_be_bytes());
        bytes.extend(self.span.to_be_bytes());
        bytes.extend(self.passes.to_be_bytes());
        bytes.extend(self.steps.iter().flat_map(|step| step.bytes()));
        bytes
    }
}

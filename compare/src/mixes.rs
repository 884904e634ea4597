//! The mixes of calls that are timed.

use crate::{
    random::Random,
    steps::{FINALIZATION, Mix, NOTARIZATION, NULLIFICATION, Step, Taken},
};

fn called(step: Step) -> Taken {
    Taken { step, offered: false }
}

fn offered(step: Step) -> Taken {
    Taken { step, offered: true }
}

fn updated(kind: u8, view: u64) -> Step {
    Step::Updated { kind, view }
}

pub fn mixes() -> [Mix; 4] {
    [live(), catch_up(), full_tables(), serving()]
}

/// Views come one after the other: most are notarized, judged and finalized, some are nullified; peers ask, and answer.
fn live() -> Mix {
    const VIEWS: u64 = 1000;
    let mut random = Random::new(1);
    let mut steps = Vec::new();
    for view in 10..10 + VIEWS {
        let take = if random.percent(20) { offered } else { called };
        if random.percent(12) {
            steps.push(take(updated(NULLIFICATION, view)));
        } else {
            steps.push(take(updated(NOTARIZATION, view)));
            let success = !random.percent(5);
            steps.push(take(Step::Certified { success, view }));
            if random.percent(80) {
                steps.push(take(updated(FINALIZATION, view)));
            }
        }
        if random.percent(20) {
            let (below, notarization) = (random.below(6), random.percent(50));
            let target = random.percent(50).then_some(2);
            let request = Step::Resolve {
                proposal: view,
                view: view - below,
                notarization,
                target,
            };
            steps.push(take(request));
        }
        steps.push(called(Step::Drain { most: 65 }));
        if random.percent(20) {
            let (view, above) = (view - random.below(4), random.below(2));
            let kind = random.pick(&[NULLIFICATION, NOTARIZATION, FINALIZATION]);
            let at = if kind == NULLIFICATION { view } else { view + above };
            steps.push(called(Step::Deliver {
                view,
                asks: 5,
                kind,
                at,
            }));
        }
        for _ in 0..2 {
            steps.push(called(Step::Produce {
                view: view - random.below(10),
            }));
        }
        let notarization = random.percent(50);
        steps.push(called(Step::Settled {
            view: view - random.below(8),
            notarization,
        }));
    }
    steps[0] = called(Step::Replayed);
    Mix {
        name: "live member",
        length: 4,
        span: VIEWS,
        passes: 1000,
        steps,
    }
}

/// A member far behind: 128 gaps are asked for, and the answers come in any order.
fn catch_up() -> Mix {
    const GAPS: u64 = 128;
    const LENGTH: u64 = 4;
    let mut random = Random::new(2);
    let ahead = GAPS * LENGTH + 1;
    let mut anchors: Vec<_> = (0..GAPS).map(|gap| gap * LENGTH + 1).collect();
    for i in 1..anchors.len() {
        anchors.swap(i, random.below(i as u64 + 1) as usize);
    }
    let mut steps = vec![called(Step::Replayed), called(updated(NOTARIZATION, ahead))];
    steps.extend(anchors.into_iter().map(|view| {
        called(Step::Deliver {
            view,
            asks: 1,
            kind: NULLIFICATION,
            at: view,
        })
    }));
    // The next pass begins right above what is final now.
    let last = ahead + LENGTH - 1;
    steps.push(called(updated(FINALIZATION, last)));
    Mix {
        name: "catch-up, 128 gaps",
        length: LENGTH as u32,
        span: last,
        passes: 10_000,
        steps,
    }
}

/// All four tables full, and rows that come and go anywhere in them.
fn full_tables() -> Mix {
    const ROWS: u64 = 128;
    let mut random = Random::new(3);
    let mut views: Vec<_> = (1..=ROWS).collect();
    let mut steps = vec![called(Step::Replayed)];
    let mut each = |step: &dyn Fn(u64) -> Step| {
        for i in 1..views.len() {
            views.swap(i, random.below(i as u64 + 1) as usize);
        }
        steps.extend(views.iter().map(|view| called(step(*view))));
    };
    each(&|view| updated(NULLIFICATION, view));
    each(&|view| updated(NOTARIZATION, ROWS + view));
    for _ in 0..10 {
        // A failed view stays failed, and its certified row comes and goes.
        each(&|view| Step::Certified {
            success: true,
            view: 2 * ROWS + view,
        });
        each(&|view| Step::Certified {
            success: false,
            view: 2 * ROWS + view,
        });
    }
    let last = 3 * ROWS;
    steps.push(called(updated(FINALIZATION, last)));
    Mix {
        name: "full tables",
        length: 1,
        span: last,
        passes: 400,
        steps,
    }
}

/// A member with half full tables that serves its peers.
fn serving() -> Mix {
    let mut random = Random::new(4);
    let mut steps = Vec::new();
    for view in 1..=64 {
        steps.push(called(updated(NULLIFICATION, 4 * view + 1)));
        steps.push(called(Step::Certified {
            success: true,
            view: 4 * view + 3,
        }));
    }
    steps.push(called(updated(FINALIZATION, 20)));
    for _ in 0..20_000 {
        let view = random.below(280);
        steps.push(called(if random.percent(80) {
            Step::Produce { view }
        } else {
            Step::Settled {
                view,
                notarization: random.percent(50),
            }
        }));
    }
    Mix {
        name: "serving",
        length: 4,
        span: 0,
        passes: 400,
        steps,
    }
}

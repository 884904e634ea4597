//! Which histories are compared.

use crate::{judge::History, random::Random};

/// Some of the histories of so many commands out of a few, behind a fresh member.
#[derive(Clone, Copy)]
pub struct Short {
    length: u32,
    commands: u32,
    from: u64,
}

/// The commands that short histories are made of.
const FEW: [&str; 14] = [
    "replayed",
    "updated nullification 1",
    "updated nullification 4",
    "updated notarization 3",
    "updated notarization 6",
    "updated finalization 2",
    "updated finalization 4",
    "certified pass notarization 3",
    "certified fail notarization 3",
    "resolve 9 3 notarization 2",
    "resolve 9 3 nullification",
    "deliver 3 background,notarization nullification 3",
    "offer updated notarization 4",
    "drain 1",
];

/// What is asked behind each of them.
const LAST: [&str; 7] = [
    "state",
    "asks",
    "produce 1",
    "produce 3",
    "produce 4",
    "settled 3 notarization",
    "drain 65",
];

impl Short {
    /// How many of them are made at once.
    const COUNT: u64 = 10_000;

    /// All histories of up to so many commands, for terms of one, two and three views.
    pub fn all(most: u32) -> Vec<Self> {
        let mut all = Vec::new();
        for commands in 1..=most {
            let count = (FEW.len() as u64).pow(commands);
            for length in 1..=3 {
                let from = (0..count).step_by(Self::COUNT as usize);
                all.extend(from.map(|from| Self {
                    length,
                    commands,
                    from,
                }));
            }
        }
        all
    }

    pub fn histories(self) -> Vec<History> {
        let count = (FEW.len() as u64).pow(self.commands);
        (self.from..count.min(self.from + Self::COUNT))
            .map(|number| self.history(number))
            .collect()
    }

    /// The history of a number: its digits are the commands.
    fn history(self, mut number: u64) -> History {
        let mut history = vec![format!("member {} 7 4 3", self.length)];
        for _ in 0..self.commands {
            history.push(FEW[(number % FEW.len() as u64) as usize].into());
            number /= FEW.len() as u64;
        }
        history.extend(LAST.map(String::from));
        history
    }
}

/// A kind of random history.
#[derive(Clone, Copy, Debug)]
pub enum Flavour {
    /// Views up to twenty or so.
    Low,
    /// Views that rise, as those of a live member.
    Rising,
    /// Views near a power of two.
    Near(u64),
    /// Evidence at low views; questions, requests and deliveries at any.
    Far,
    /// Tables, boards, gaps or a queue about to be full.
    Full,
    /// Damaged records, and those of others.
    Damaged,
    /// Much through the queue, emptied into lists of all sizes.
    Queue,
}

pub const FLAVOURS: [Flavour; 13] = [
    Flavour::Low,
    Flavour::Rising,
    Flavour::Near(1 << 31),
    Flavour::Near(1 << 32),
    Flavour::Near(1 << 62),
    Flavour::Near(1 << 63),
    Flavour::Near(u64::MAX),
    Flavour::Far,
    Flavour::Full,
    Flavour::Damaged,
    Flavour::Queue,
    Flavour::Low,
    Flavour::Rising,
];

const LENGTHS: [u32; 12] = [
    1,
    2,
    3,
    4,
    5,
    8,
    100,
    65_535,
    1 << 20,
    1 << 31,
    u32::MAX - 1,
    u32::MAX,
];

/// Makes one random history.
pub struct Maker<'a> {
    random: &'a mut Random,
    flavour: Flavour,
    /// The view around which others lie.
    here: u64,
    spread: u64,
    /// How many of a hundred records are damaged.
    damaged: u64,
    history: History,
}

/// A random history of a flavour.
pub fn random(random: &mut Random, flavour: Flavour) -> History {
    let length = match flavour {
        Flavour::Low | Flavour::Rising | Flavour::Queue => 1 + random.below(6) as u32,
        Flavour::Full => 1 + random.below(3) as u32,
        _ => random.pick(&LENGTHS),
    };
    let seats = 1 + random.below(64);
    let (seats, quorum) = if random.percent(70) {
        (4, 3)
    } else {
        (seats, 1 + random.below(seats))
    };
    let board = random.pick(&["", " rows", " list"]);
    let first = format!("member {length} {} {seats} {quorum}{board}", random.below(3) * 7);
    let (here, spread, damaged) = match flavour {
        Flavour::Near(view) => (view, 12, 2),
        Flavour::Damaged => (5, 12, 50),
        Flavour::Full => (0, 180, 1),
        Flavour::Far => (9, 12, 2),
        _ => (8, 4 + random.below(20), 2),
    };
    let mut maker = Maker {
        random,
        flavour,
        here,
        spread,
        damaged,
        history: vec![first],
    };
    match flavour {
        Flavour::Full => maker.fill(u64::from(length)),
        Flavour::Near(_) => maker.start_near(u64::from(length)),
        _ => {}
    }
    for _ in 0..12 + maker.random.below(50) {
        maker.step();
    }
    maker.ask_all();
    maker.history
}

impl Maker<'_> {
    fn say(&mut self, command: String) {
        self.history.push(command);
    }

    /// A view for evidence.
    fn view(&mut self) -> u64 {
        if let Flavour::Rising = self.flavour {
            self.here += self.random.below(3);
        }
        let low = self.here.saturating_sub(self.spread / 2);
        low.saturating_add(self.random.below(self.spread))
    }

    /// A view that is only asked about, or delivered for.
    fn asked(&mut self) -> u64 {
        match self.flavour {
            Flavour::Far if self.random.percent(50) => {
                let near = 1_u64 << self.random.below(64);
                near.wrapping_add(self.random.below(4)).wrapping_sub(2)
            }
            _ => self.view(),
        }
    }

    fn ask_kind(&mut self) -> &'static str {
        self.random.pick(&["nullification", "notarization"])
    }

    fn kind(&mut self) -> &'static str {
        self.random
            .pick(&["nullification", "notarization", "notarization", "finalization"])
    }

    /// The 96 bytes of a record, some of them wrong, or too few or too many.
    fn bytes(&mut self, view: u64) -> String {
        let mut bytes = [0_u8; 98];
        bytes[0] = 1 + self.random.below(3) as u8;
        bytes[15] = self.random.below(2) as u8 * 7;
        bytes[16..24].copy_from_slice(&view.to_be_bytes());
        bytes[71] = self.random.pick(&[7, 7, 7, 3, 15, 0]);
        if self.random.percent(60) {
            let (at, bit) = (self.random.below(96), self.random.below(8));
            bytes[at as usize] ^= 1 << bit;
        }
        let length = self.random.pick(&[96, 96, 96, 96, 96, 96, 95, 97, 98, 0, 1]);
        if length == 0 {
            return "bytes -".into();
        }
        bytes[..length]
            .iter()
            .fold("bytes ".into(), |text, byte| format!("{text}{byte:02x}"))
    }

    /// A record of this kind and view, now and then with options, or damaged.
    fn record(&mut self, kind: &str, view: u64) -> String {
        if self.random.percent(self.damaged) {
            return self.bytes(view);
        }
        let mut record = format!("{kind} {view}");
        if self.random.percent(4) {
            record += &format!(" epoch={}", self.random.below(9));
        }
        if kind != "nullification" && self.random.percent(20) {
            record += &format!(" parent={}", self.random.below(view));
        }
        if self.random.percent(6) {
            record += &format!(" seats={}", self.random.pick(&[0, 3, 7, 11, 15, 31, u64::MAX]));
        }
        record
    }

    fn evidence(&mut self) -> String {
        // A finalization ends much, so it is rarer.
        let kind = if self.random.percent(8) {
            "finalization"
        } else {
            self.kind()
        };
        let kind = if kind == "finalization" && self.random.percent(70) {
            "notarization"
        } else {
            kind
        };
        let view = self.view();
        format!("updated {}", self.record(kind, view))
    }

    fn verdict(&mut self) -> String {
        let verdict = self.random.pick(&["pass", "fail", "fail"]);
        // Another kind is refused, and a queue of the Rust has no form for it.
        let kind = if self.random.percent(2) {
            "finalization"
        } else {
            "notarization"
        };
        let view = self.view();
        format!("certified {verdict} {}", self.record(kind, view))
    }

    fn request(&mut self) -> String {
        let (view, above) = (self.asked(), self.random.below(6));
        let proposal = view.saturating_add(above);
        let target = if self.random.percent(50) {
            format!(" {}", self.random.below(5))
        } else {
            String::new()
        };
        format!("resolve {proposal} {view} {}{target}", self.ask_kind())
    }

    fn delivery(&mut self) -> String {
        let count = self.random.pick(&[1, 1, 1, 1, 2, 2, 3, 4, 15, 16, 17, 0]);
        let asks: Vec<_> = (0..count)
            .map(|_| self.random.pick(&["background", "nullification", "notarization"]))
            .collect();
        let asks = if asks.is_empty() {
            "-".into()
        } else {
            asks.join(",")
        };
        let view = self.asked();
        let above = view.saturating_add(self.random.below(3));
        let at = if self.random.percent(70) {
            above
        } else {
            self.view()
        };
        let kind = self.kind();
        format!("deliver {view} {asks} {}", self.record(kind, at))
    }

    fn question(&mut self) -> String {
        let view = self.asked();
        match self.random.below(6) {
            0 => "asks".into(),
            1 | 2 => format!("produce {view}"),
            3 => format!("settled {view} {}", self.ask_kind()),
            4 => format!("read {}", self.bytes(view)),
            _ => "state".into(),
        }
    }

    /// A call that may wait in the queue too.
    fn call(&mut self) -> String {
        match self.random.below(20) {
            0..9 => self.evidence(),
            9..13 => self.verdict(),
            13 => "replayed".into(),
            _ => self.request(),
        }
    }

    fn offer(&mut self) -> String {
        loop {
            let call = self.call();
            // A verdict on another kind is the one call that a queue of the Rust has no form for.
            if !(call.starts_with("certified") && !call.contains(" notarization ")) {
                return format!("offer {call}");
            }
        }
    }

    fn drain(&mut self) -> String {
        let most = self.random.pick(&[0, 1, 1, 2, 3, 5, 8, 63, 64, 65, 66, u64::MAX]);
        format!("drain {most}")
    }

    fn step(&mut self) {
        let queued = if let Flavour::Queue = self.flavour { 60 } else { 12 };
        let command = if self.random.percent(queued) {
            if self.random.percent(80) {
                self.offer()
            } else {
                self.drain()
            }
        } else {
            match self.random.below(20) {
                0..9 => self.call(),
                9..14 => self.delivery(),
                _ => self.question(),
            }
        };
        self.say(command);
    }

    /// Brings one of the limits near.
    fn fill(&mut self, length: u64) {
        let count = 118 + self.random.below(12);
        let end = (count + self.random.below(4)) * length;
        match self.random.below(7) {
            0 => self.each(count, |_, i| format!("updated nullification {}", i * length + 1)),
            1 => self.each(count, |_, i| format!("updated notarization {}", i + 1)),
            2 => self.each(count, |_, i| format!("certified pass notarization {}", i + 1)),
            3 => self.each(count, |_, i| format!("certified fail notarization {}", i + 1)),
            4 => self.each(count / 2 + 1, |it, i| {
                format!("resolve {} {} {}", i + 500, i + 1, it.ask_kind())
            }),
            5 => self.each(count / 2 + 1, |_, i| {
                format!("offer resolve {} {} notarization 1", i + 500, i + 1)
            }),
            _ => {}
        }
        if self.random.percent(70) {
            self.say("replayed".into());
            self.say(format!("updated notarization {end}"));
        }
        // More background asks come with a floor that leaves the ones above it open.
        if self.random.percent(30) {
            let view = end / 2;
            self.say(format!("certified pass notarization {view}"));
            self.say(format!("updated nullification {}", end + 100 * length));
        }
        self.here = end / 2;
        self.spread = end + 40;
    }

    fn each(&mut self, count: u64, command: impl Fn(&mut Self, u64) -> String) {
        for i in 0..count {
            let command = command(self, i);
            self.say(command);
        }
    }

    /// Raises the floor to just below the views of this flavour, so that there are few gaps.
    fn start_near(&mut self, length: u64) {
        let floor = self
            .here
            .saturating_sub(8 + self.random.below(2 * length.min(50)));
        if self.random.percent(85) {
            let first = self
                .random
                .pick(&["updated finalization", "certified pass notarization"]);
            self.say(format!("{first} {floor}"));
            self.say("replayed".into());
        }
        self.say(format!("term {length} {}", self.here));
        let view = self.view();
        self.say(format!("covers {length} {view} {}", self.here));
    }

    /// Looks at all that can be looked at.
    fn ask_all(&mut self) {
        self.say("state".into());
        self.say("asks".into());
        for _ in 0..3 {
            let view = self.asked();
            self.say(format!("produce {view}"));
            let kind = self.ask_kind();
            self.say(format!("settled {view} {kind}"));
        }
        if self.random.percent(30) {
            self.say("drain 65".into());
            self.say("state".into());
            self.say("asks".into());
        }
    }
}

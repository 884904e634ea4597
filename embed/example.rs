//! The same calls from a program in Rust that takes the resolver as an archive: the forms are those of resolver.h.

#[repr(C)]
#[derive(Clone, Copy, PartialEq)]
struct Record {
    bytes: [u8; 96],
}

#[repr(C)]
#[derive(Clone, Copy, PartialEq)]
struct Ask {
    view: u64,
    rank: u32,
    targeted: u32,
    target: u32,
}

#[repr(C)]
#[derive(Clone, Copy)]
struct Effect {
    what: u32,
    of: u32,
    view: u64,
    other: u64,
}

#[repr(C)]
struct Effects {
    count: u64,
    effects: [Effect; 256],
}

#[repr(C)]
#[derive(Clone, PartialEq)]
struct Member {
    term_length: u32,
    seats: u32,
    quorum: u32,
    replaying: u32,
    epoch: u64,
    current_view: u64,
    floor: u64,
    cursor: u64,
    finalization_count: u32,
    nullification_count: u32,
    pending_count: u32,
    certified_count: u32,
    failed_count: u32,
    ask_count: u32,
    finalization: Record,
    nullifications: [Record; 128],
    certified: [Record; 128],
    pending: [u64; 128],
    failed: [u64; 128],
    asks: [Ask; 320],
}

#[repr(C)]
struct Told {
    refusal: u32,
    layer: u32,
    value: u64,
}

#[repr(C)]
struct Reading {
    refusal: u32,
    layer: u32,
    kind: u64,
    epoch: u64,
    view: u64,
    parent: u64,
}

#[repr(C)]
struct Answer {
    refusal: u32,
    layer: u32,
    value: u32,
    taken: u32,
}

// References are never null; a slice is its pointer and its length.
#[allow(improper_ctypes)]
unsafe extern "C" {
    safe fn resolver_term_start(length: u32, view: u64) -> Told;
    safe fn resolver_term_end(length: u32, view: u64) -> Told;
    safe fn resolver_covers(length: u32, nullified: u64, view: u64) -> Told;
    fn resolver_read(bytes: *const u8, length: usize) -> Reading;
    safe fn resolver_frame(
        kind: u32, epoch: u64, view: u64, parent: u64, payload: &[u8; 32], proof: &[u8; 32], place: &mut Record,
    ) -> Told;
    safe fn resolver_begin(member: &mut Member, term_length: u32, epoch: u64, seats: u32, quorum: u32) -> Answer;
    fn resolver_updated(member: &mut Member, bytes: *const u8, length: usize, effects: &mut Effects) -> Answer;
    fn resolver_certified(
        member: &mut Member, bytes: *const u8, length: usize, success: u32, effects: &mut Effects,
    ) -> Answer;
    safe fn resolver_replayed(member: &mut Member, effects: &mut Effects) -> Answer;
    safe fn resolver_resolve(
        member: &mut Member, proposal: u64, view: u64, kind: u32, targeted: u32, target: u32,
    ) -> Answer;
    fn resolver_deliver(
        member: &mut Member, view: u64, asks: u32, bytes: *const u8, length: usize, effects: &mut Effects,
    ) -> Answer;
    safe fn resolver_settled(member: &Member, view: u64, kind: u32) -> Answer;
    safe fn resolver_produce(member: &Member, view: u64, place: &mut Record) -> Answer;
}

const LAYERS: [&str; 9] = ["", "terms", "record", "state", "verifier", "board", "queue", "resolver", "embedding"];
const KINDS: [&str; 3] = ["background", "nullification", "notarization"];
const REASONS: [&str; 3] = ["", "missing_nullification", "certification_failed"];
const OUTCOMES: [&str; 7] = ["", "ignored", "invalid", "unresolved", "partial", "complete", "let go"];
const RECORDS: [&str; 4] = ["", "notarization", "nullification", "finalization"];

const NOTARIZATION: u32 = 1;
const NULLIFICATION: u32 = 2;
const FINALIZATION: u32 = 3;

const NO_RECORD: Record = Record { bytes: [0; 96] };

fn record(kind: u32, epoch: u64, view: u64, seats: u8) -> Record {
    let mut proof = [0; 32];
    proof[7] = seats;
    let mut made = NO_RECORD;
    resolver_frame(kind, epoch, view, 0, &[0; 32], &proof, &mut made);
    made
}

fn read(bytes: &[u8]) -> Reading {
    unsafe { resolver_read(bytes.as_ptr(), bytes.len()) }
}

fn refused(refusal: u32, layer: u32) -> String {
    format!("refused {refusal} {}", LAYERS[layer as usize])
}

/// All memory that the resolver uses.
struct Host {
    member: Box<Member>,
    effects: Box<Effects>,
}

impl Host {
    fn new() -> Host {
        let ask = Ask { view: 0, rank: 0, targeted: 0, target: 0 };
        let effect = Effect { what: 0, of: 0, view: 0, other: 0 };
        Host {
            member: Box::new(Member {
                term_length: 0,
                seats: 0,
                quorum: 0,
                replaying: 0,
                epoch: 0,
                current_view: 0,
                floor: 0,
                cursor: 0,
                finalization_count: 0,
                nullification_count: 0,
                pending_count: 0,
                certified_count: 0,
                failed_count: 0,
                ask_count: 0,
                finalization: NO_RECORD,
                nullifications: [NO_RECORD; 128],
                certified: [NO_RECORD; 128],
                pending: [0; 128],
                failed: [0; 128],
                asks: [ask; 320],
            }),
            effects: Box::new(Effects { count: 0, effects: [effect; 256] }),
        }
    }

    fn told(&self, first: String) -> String {
        let effects: Vec<String> = self.effects.effects[..self.effects.count as usize]
            .iter()
            .map(|did| match did.what {
                1 => format!("fetch {} {} {}", did.view, did.other, REASONS[did.of as usize]),
                2 => format!("settled {} {} {}", KINDS[did.of as usize], did.view, did.other),
                3 => format!("finalized {}", did.view),
                _ => format!("raised {}", did.view),
            })
            .collect();
        if effects.is_empty() { first } else { format!("{first} {}", effects.join(", ")) }
    }

    fn print_change(&self, answer: Answer) {
        match answer.refusal {
            0 => println!("{}", self.told("ok".to_string())),
            refusal => println!("{}", refused(refusal, answer.layer)),
        }
    }

    fn update(&mut self, kind: u32, view: u64) {
        let told = record(kind, 7, view, 7).bytes;
        let answer = unsafe { resolver_updated(&mut self.member, told.as_ptr(), told.len(), &mut self.effects) };
        self.print_change(answer);
    }

    fn certify(&mut self, success: u32, view: u64) {
        let told = record(NOTARIZATION, 7, view, 7).bytes;
        let answer =
            unsafe { resolver_certified(&mut self.member, told.as_ptr(), told.len(), success, &mut self.effects) };
        self.print_change(answer);
    }

    fn deliver(&mut self, view: u64, asks: u32, told: Record) {
        let bytes = &told.bytes;
        let answer = unsafe {
            resolver_deliver(&mut self.member, view, asks, bytes.as_ptr(), bytes.len(), &mut self.effects)
        };
        if answer.refusal != 0 {
            println!("{}", refused(answer.refusal, answer.layer));
            return;
        }
        let taken = if answer.taken == 1 { "taken" } else { "not taken" };
        println!("{}", self.told(format!("{} {taken}", OUTCOMES[answer.value as usize])));
    }

    fn produce(&self, view: u64) {
        let mut place = NO_RECORD;
        let answer = resolver_produce(&self.member, view, &mut place);
        match (answer.refusal, answer.value) {
            (0, 0) => println!("none"),
            (0, _) => {
                let read = read(&place.bytes);
                println!("{} {}", RECORDS[read.kind as usize], read.view);
            }
            (refusal, _) => println!("{}", refused(refusal, answer.layer)),
        }
    }

    fn print_asks(&self) {
        let asks: Vec<String> = self.member.asks[..self.member.ask_count as usize]
            .iter()
            .map(|open| match open.targeted {
                0 => format!("{} {}", open.view, KINDS[open.rank as usize]),
                _ => format!("{} {} {}", open.view, KINDS[open.rank as usize], open.target),
            })
            .collect();
        println!("{}", if asks.is_empty() { "none".to_string() } else { asks.join(", ") });
    }

    fn print_state(&self) {
        let member = &self.member;
        println!(
            "floor {} current {} cursor {} replay {} rows {} {} {} {}",
            member.floor,
            member.current_view,
            member.cursor,
            if member.replaying == 1 { "yes" } else { "no" },
            member.nullification_count,
            member.pending_count,
            member.certified_count,
            member.failed_count,
        );
    }

    fn print_same(&self, before: &Member) {
        println!("{}", if *self.member == *before { "same" } else { "changed" });
    }
}

fn print_yes(answer: Answer) {
    match answer.refusal {
        0 => println!("{}", if answer.value == 1 { "yes" } else { "no" }),
        refusal => println!("{}", refused(refusal, answer.layer)),
    }
}

fn main() {
    println!("end {}", resolver_term_end(4, 6).value);
    println!("{}", if resolver_covers(4, 6, 9).value == 1 { "yes" } else { "no" });
    let told = resolver_term_start(0, 6);
    println!("{}", refused(told.refusal, told.layer));
    let told = read(&[0]);
    println!("{}", refused(told.refusal, told.layer));

    let mut host = Host::new();
    let answer = resolver_begin(&mut host.member, 4, 7, 4, 5);
    host.print_change(answer);
    let answer = resolver_begin(&mut host.member, 4, 7, 4, 3);
    host.print_change(answer);
    let answer = resolver_replayed(&mut host.member, &mut host.effects);
    host.print_change(answer);
    host.update(NULLIFICATION, 10);
    host.print_asks();
    host.update(FINALIZATION, 6);
    host.print_asks();
    host.update(NULLIFICATION, 7);
    host.certify(0, 14);
    host.certify(1, 9);
    host.print_asks();

    let before = host.member.clone();
    host.update(4, 11);
    host.update(NULLIFICATION, (1 << 62) + 1);
    host.update(NULLIFICATION, 1 << 40);
    host.print_same(&before);

    print_yes(resolver_resolve(&mut host.member, 20, 15, 2, 1, 2));
    print_yes(resolver_resolve(&mut host.member, 20, 12, 1, 0, 0));
    host.print_asks();
    host.deliver(16, 2, record(NULLIFICATION, 8, 16, 7));
    host.deliver(16, 2, record(NULLIFICATION, 7, 16, 3));
    host.deliver(15, 4, record(NOTARIZATION, 7, 17, 7));
    host.deliver(13, 3, record(NULLIFICATION, 7, 13, 7));
    host.deliver(15, 0, record(NULLIFICATION, 7, 16, 7));
    host.print_asks();
    print_yes(resolver_settled(&host.member, 8, 1));
    print_yes(resolver_settled(&host.member, 18, 1));
    host.produce(5);
    host.produce(12);
    host.produce(100);
    host.print_state();

    host.member.nullifications.swap(0, 1);
    let before = host.member.clone();
    host.update(NULLIFICATION, 11);
    print_yes(resolver_settled(&host.member, 8, 1));
    host.produce(5);
    host.print_same(&before);
}

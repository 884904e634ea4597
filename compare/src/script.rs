//! The script language (docs/script.md), answered by the published sources.

use crate::record;
use commonware_consensus::simplex::machine::{
    self, Call, Certificate, Delivery, Fields, Machine, Requested, decoded, encoded, undecodable,
};
use std::{fmt::Write, num::NonZeroU32};

/// A line that this side cannot answer: it is no command, or it says what the Rust has no form for.
#[derive(Debug, PartialEq, Eq)]
pub struct Unanswered;

type Answer = Result<String, Unanswered>;

/// The words of a line.
type Words<'a> = std::str::SplitAsciiWhitespace<'a>;

fn word<'a>(words: &mut Words<'a>) -> Result<&'a str, Unanswered> {
    words.next().ok_or(Unanswered)
}

fn number<T: std::str::FromStr>(words: &mut Words) -> Result<T, Unanswered> {
    word(words)?.parse().map_err(|_| Unanswered)
}

fn notarization(words: &mut Words) -> Result<bool, Unanswered> {
    match word(words)? {
        "notarization" => Ok(true),
        "nullification" => Ok(false),
        _ => Err(Unanswered),
    }
}

fn hex(digits: &str) -> Result<Vec<u8>, Unanswered> {
    if digits == "-" {
        return Ok(Vec::new());
    }
    let pairs = digits.as_bytes().chunks(2);
    pairs
        .map(|pair| {
            let pair = std::str::from_utf8(pair).map_err(|_| Unanswered)?;
            u8::from_str_radix(pair, 16).map_err(|_| Unanswered)
        })
        .collect()
}

fn refused(number: u8, layer: &str) -> Answer {
    Ok(format!("refused {number} {layer}"))
}

fn yes(it: bool) -> Answer {
    Ok(if it { "yes" } else { "no" }.into())
}

/// What a record has where a script does not say.
#[derive(Clone, Copy, Default)]
struct Defaults {
    epoch: u64,
    quorum: u64,
}

impl Defaults {
    fn mask(self) -> u64 {
        if self.quorum >= 64 {
            u64::MAX
        } else {
            (1 << self.quorum) - 1
        }
    }

    /// The bytes that RECORD stands for.
    fn record(self, words: &mut Words) -> Result<Vec<u8>, Unanswered> {
        let kind = match word(words)? {
            "bytes" => return hex(word(words)?),
            "notarization" => 1,
            "nullification" => 2,
            "finalization" => 3,
            _ => return Err(Unanswered),
        };
        let view = number(words)?;
        let (mut epoch, mut parent, mut mask) = (self.epoch, 0, self.mask());
        for option in words {
            let (name, value) = option.split_once('=').ok_or(Unanswered)?;
            let value = value.parse().map_err(|_| Unanswered)?;
            match name {
                "epoch" => epoch = value,
                "parent" => parent = value,
                "seats" => mask = value,
                _ => return Err(Unanswered),
            }
        }
        let mut proof = [0; 32];
        proof[..8].copy_from_slice(&mask.to_be_bytes());
        let fields = Fields {
            epoch,
            view,
            parent,
            payload: [0; 32],
            proof,
        };
        Ok(record::frame(kind, &fields).into())
    }
}

struct Member {
    machine: Machine,
    defaults: Defaults,
}

/// A member over the published sources, run from a script.
#[derive(Default)]
pub struct Side {
    member: Option<Member>,
}

/// A call, or the refusal that its record or its verdict's kind gets before any call.
enum Meant {
    Call(Call),
    Refused(u8, &'static str),
}

impl Side {
    /// The answer to a line, without the line's end; none if it holds no command.
    pub fn answer(&mut self, line: &str) -> Result<Option<String>, Unanswered> {
        let line = line.split('#').next().unwrap_or("");
        let mut words = line.split_ascii_whitespace();
        let Some(command) = words.next() else {
            return Ok(None);
        };
        let answer = match command {
            "term" => Self::term(&mut words),
            "covers" => Self::covers(&mut words),
            "read" => self.read(&mut words),
            "member" => self.make(&mut words),
            _ => self
                .member
                .as_mut()
                .ok_or(Unanswered)?
                .answer(command, &mut words),
        };
        answer.map(Some)
    }

    fn term(words: &mut Words) -> Answer {
        let (length, view) = (number(words)?, number(words)?);
        let Some(length) = NonZeroU32::new(length) else {
            return refused(9, "terms");
        };
        let (start, end, next) = machine::term(length, view);
        Ok(format!("start {start} end {end} next {next}"))
    }

    fn covers(words: &mut Words) -> Answer {
        let (length, nullified, view) = (number(words)?, number(words)?, number(words)?);
        let Some(length) = NonZeroU32::new(length) else {
            return refused(9, "terms");
        };
        yes(machine::covers(length, nullified, view))
    }

    fn read(&self, words: &mut Words) -> Answer {
        let defaults = self.member.as_ref().map_or(Defaults::default(), |it| it.defaults);
        match record::read(&defaults.record(words)?) {
            Ok(certificate) => {
                let (kind, it) = machine::fields(&certificate);
                let kind = record::name(kind);
                Ok(format!(
                    "{kind} epoch {} view {} parent {}",
                    it.epoch, it.view, it.parent
                ))
            }
            Err(number) => refused(number, "record"),
        }
    }

    fn make(&mut self, words: &mut Words) -> Answer {
        let (length, epoch, seats, quorum) = (
            number(words)?,
            number(words)?,
            number::<u64>(words)?,
            number::<u64>(words)?,
        );
        let Some(length) = NonZeroU32::new(length) else {
            return refused(9, "terms");
        };
        if !(1 <= quorum && quorum <= seats && seats <= 64) {
            return refused(15, "verifier");
        }
        let machine = Machine::new(length, epoch, seats, quorum);
        self.member = Some(Member {
            machine,
            defaults: Defaults { epoch, quorum },
        });
        Ok("member".into())
    }
}

impl Member {
    fn answer(&mut self, command: &str, words: &mut Words) -> Answer {
        match command {
            "offer" => self.offer(words),
            "drain" => self.drain(words),
            "deliver" => self.deliver(words),
            "settled" => {
                let (view, kind) = (number(words)?, notarization(words)?);
                yes(self.machine.settled(view, kind))
            }
            "produce" => self.produce(words),
            "asks" => Ok(self.asks()),
            "state" => Ok(self.machine.state().to_string()),
            _ => match self.meant(command, words, true)? {
                Meant::Call(call) => Ok(self.called(call)),
                Meant::Refused(number, layer) => refused(number, layer),
            },
        }
    }

    /// What a call's words ask for. A verdict's kind is tested where it is called at once.
    fn meant(&self, command: &str, words: &mut Words, at_once: bool) -> Result<Meant, Unanswered> {
        Ok(match command {
            "updated" => match record::read(&self.defaults.record(words)?) {
                Ok(certificate) => Meant::Call(Call::Updated(certificate)),
                Err(number) => Meant::Refused(number, "record"),
            },
            "certified" => {
                let success = match word(words)? {
                    "pass" => true,
                    "fail" => false,
                    _ => return Err(Unanswered),
                };
                match record::read(&self.defaults.record(words)?).map(record::judged) {
                    Ok(Some(notarization)) => Meant::Call(Call::Certified(success, notarization)),
                    Ok(None) if at_once => Meant::Refused(8, "state"),
                    Ok(None) => return Err(Unanswered),
                    Err(number) => Meant::Refused(number, "record"),
                }
            }
            "replayed" => Meant::Call(Call::Replayed),
            "resolve" => Meant::Call(Call::Resolve {
                proposal: number(words)?,
                view: number(words)?,
                notarization: notarization(words)?,
                target: words.next().map(str::parse).transpose().map_err(|_| Unanswered)?,
            }),
            _ => return Err(Unanswered),
        })
    }

    fn called(&mut self, call: Call) -> String {
        if let Call::Resolve { .. } = call {
            return match self.machine.call(call) {
                Requested::Asked => "asked",
                Requested::NotNeeded => "not needed",
                Requested::Refused => "refused 11 board",
            }
            .into();
        }
        let before = self.machine.before();
        self.machine.call(call.clone());
        format!("ok{}", before.effects(&call))
    }

    fn deliver(&mut self, words: &mut Words) -> Answer {
        let view = number(words)?;
        let asks = word(words)?;
        let asks: Vec<u8> = match asks {
            "-" => Vec::new(),
            _ => asks
                .split(',')
                .map(|ask| match ask {
                    "background" => Ok(0),
                    "nullification" => Ok(1),
                    "notarization" => Ok(2),
                    _ => Err(Unanswered),
                })
                .collect::<Result<_, _>>()?,
        };
        let bytes = self.defaults.record(words)?;
        let data = record::read(&bytes).map_or_else(|_| undecodable(), |it| encoded(&it));
        let Some(delivery) = Delivery::new(view, data, &asks) else {
            return refused(10, "resolver");
        };
        let before = self.machine.before();
        let (judged, taken) = self.machine.deliver(delivery);
        Ok(match taken {
            Some(it) => format!("{judged} taken{}", before.effects(&Call::Updated(it))),
            None => format!("{judged} not taken"),
        })
    }

    fn produce(&mut self, words: &mut Words) -> Answer {
        let Some(bytes) = self.machine.produce(number(words)?) else {
            return Ok("none".into());
        };
        let certificate = decoded(bytes);
        let mut answer = record::shown(&certificate) + " ";
        for byte in record::write(&certificate) {
            let _ = write!(answer, "{byte:02x}");
        }
        Ok(answer)
    }

    fn asks(&self) -> String {
        let asks: Vec<_> = self
            .machine
            .asks()
            .map(|(view, rank, target)| {
                let name = ["background", "nullification", "notarization"][usize::from(rank)];
                let target = target.map_or(String::new(), |seat| format!(" {seat}"));
                format!("{view} {name}{target}")
            })
            .collect();
        if asks.is_empty() {
            "none".into()
        } else {
            asks.join(", ")
        }
    }

    fn offer(&mut self, words: &mut Words) -> Answer {
        match self.meant(word(words)?, words, false)? {
            Meant::Call(call) => {
                self.machine.offer(call);
                let (held, others) = self.machine.waiting();
                Ok(format!("waiting {} {others}", u8::from(held)))
            }
            Meant::Refused(number, layer) => refused(number, layer),
        }
    }

    fn drain(&mut self, words: &mut Words) -> Answer {
        let most = number::<u64>(words)?.min(65) as usize;
        let calls = self.machine.drain(most);
        let mut answer = format!("drained {}", calls.len());
        for call in calls {
            let shown = message(&call);
            let _ = write!(answer, "\n  {shown}: {}", self.called(call));
        }
        Ok(answer)
    }
}

/// A waiting call, as it would be offered.
fn message(call: &Call) -> String {
    match call {
        Call::Updated(certificate) => format!("updated {}", record::shown(certificate)),
        Call::Certified(success, notarization) => {
            let verdict = if *success { "pass" } else { "fail" };
            let record = record::shown(&Certificate::Notarization(notarization.clone()));
            format!("certified {verdict} {record}")
        }
        Call::Replayed => "replayed".into(),
        Call::Resolve {
            proposal,
            view,
            notarization,
            target,
        } => {
            let kind = if *notarization {
                "notarization"
            } else {
                "nullification"
            };
            let target = target.map_or(String::new(), |seat| format!(" {seat}"));
            format!("resolve {proposal} {view} {kind}{target}")
        }
    }
}

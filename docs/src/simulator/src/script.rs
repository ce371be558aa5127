//! Scripts: lines are read in place, carried out and answered.

use crate::audit;
use crate::denomination::{Denomination, Symbol};
use crate::refusal::Refusal;
use crate::text::{put_number, read_number};
use crate::world::{Token, World};

pub const LONGEST_SCRIPT: usize = 65_536;
pub const LONGEST_LINE: usize = 255;
const MOST_WORDS: usize = 8;

/// The commands, by name.
#[derive(Clone, Copy, Debug, PartialEq, Eq)]
#[repr(u8)]
pub enum Name {
    Open,
    Issue,
    Retire,
    Pay,
    Send,
    Receive,
    Ack,
    Timeout,
    Tick,
    Bar,
    Unbar,
    Home,
    Audit,
}

pub const NAMES: [&str; 13] =
    ["open", "issue", "retire", "pay", "send", "receive", "ack", "timeout", "tick", "bar", "unbar", "home", "audit"];

/// A line that has been read.
enum Call {
    Open { a: u64, b: u64, strict: bool },
    Issue { c: u64, u: u64, symbol: Symbol, n: u64 },
    Retire { c: u64, u: u64, denomination: Denomination, n: u64 },
    Pay { c: u64, u: u64, v: u64, denomination: Denomination, n: u64 },
    Send { c: u64, k: u64, u: u64, v: u64, denomination: Denomination, n: u64, t: u64 },
    Receive { l: u64, d: u64, s: u64 },
    Ack { l: u64, d: u64, s: u64 },
    Timeout { l: u64, d: u64, s: u64 },
    Tick { c: u64, n: u64 },
    Bar { c: u64, u: u64 },
    Unbar { c: u64, u: u64 },
    Home { c: u64, denomination: Denomination },
    Audit,
}

impl Call {
    fn name(&self) -> Name {
        match self {
            Call::Open { .. } => Name::Open,
            Call::Issue { .. } => Name::Issue,
            Call::Retire { .. } => Name::Retire,
            Call::Pay { .. } => Name::Pay,
            Call::Send { .. } => Name::Send,
            Call::Receive { .. } => Name::Receive,
            Call::Ack { .. } => Name::Ack,
            Call::Timeout { .. } => Name::Timeout,
            Call::Tick { .. } => Name::Tick,
            Call::Bar { .. } => Name::Bar,
            Call::Unbar { .. } => Name::Unbar,
            Call::Home { .. } => Name::Home,
            Call::Audit => Name::Audit,
        }
    }
}

/// What an accepted line answers behind its `ok`.
#[derive(Clone, Copy)]
pub enum Answer {
    Done,
    Number(u64),
    Home(Token),
    Audit,
}

/// What became of a line; the name is there once the line has been read as a call.
pub enum Outcome {
    PassedOver,
    Accepted(Name, Answer),
    Refused(Option<Name>, Refusal),
}

#[derive(Default)]
pub struct Session {
    pub world: World,
    lines: u64,
}

impl Session {
    /// Carries out one line and writes its answer behind what `out` has.
    pub fn line(&mut self, line: &[u8], out: &mut Vec<u8>) -> Outcome {
        self.lines += 1;
        let outcome = self.carry_out(line);
        match &outcome {
            Outcome::PassedOver => {}
            Outcome::Accepted(_, answer) => {
                put_number(out, self.lines);
                out.extend_from_slice(b" ok");
                match answer {
                    Answer::Done | Answer::Audit => {}
                    Answer::Number(number) => {
                        out.push(b' ');
                        put_number(out, *number);
                    }
                    Answer::Home(token) => {
                        out.push(b' ');
                        put_number(out, token.chain as u64);
                        out.push(b' ');
                        out.extend_from_slice(token.symbol.text());
                    }
                }
                out.push(b'\n');
                if matches!(answer, Answer::Audit) {
                    audit::put(&self.world, out);
                }
            }
            Outcome::Refused(_, refusal) => put_refusal(self.lines, *refusal, out),
        }
        outcome
    }

    fn carry_out(&mut self, line: &[u8]) -> Outcome {
        if line.len() > LONGEST_LINE {
            return Outcome::Refused(None, Refusal::TooLong);
        }
        if line.is_empty() || line[0] == b'#' {
            return Outcome::PassedOver;
        }
        match read_line(line) {
            Err(refusal) => Outcome::Refused(None, refusal),
            Ok(call) => match apply(&mut self.world, &call) {
                Ok(answer) => Outcome::Accepted(call.name(), answer),
                Err(refusal) => Outcome::Refused(Some(call.name()), refusal),
            },
        }
    }
}

/// Carries out a whole script. `after` sees what became of each line, and may
/// take away what has been written so far.
pub fn run(script: &[u8], out: &mut Vec<u8>, mut after: impl FnMut(&Outcome, &mut Vec<u8>)) {
    if script.len() > LONGEST_SCRIPT {
        put_refusal(0, Refusal::TooLong, out);
        after(&Outcome::Refused(None, Refusal::TooLong), out);
        return;
    }
    let mut session = Session::default();
    // What follows the last LF of a script may be an empty line, which is passed over.
    for line in script.split(|&byte| byte == b'\n') {
        let outcome = session.line(line, out);
        after(&outcome, out);
    }
}

fn put_refusal(line: u64, refusal: Refusal, out: &mut Vec<u8>) {
    put_number(out, line);
    out.extend_from_slice(b" no ");
    put_number(out, u64::from(refusal.number()));
    out.push(b' ');
    out.extend_from_slice(refusal.layer().as_bytes());
    out.push(b'\n');
}

fn check_bytes(line: &[u8]) -> Result<(), Refusal> {
    let mut before = b' ';
    for &byte in line {
        if !(32..=126).contains(&byte) || (byte == b' ' && before == b' ') {
            return Err(Refusal::BadByte);
        }
        before = byte;
    }
    if before == b' ' {
        return Err(Refusal::BadByte);
    }
    Ok(())
}

fn read_line(line: &[u8]) -> Result<Call, Refusal> {
    check_bytes(line)?;
    let mut words: [&[u8]; MOST_WORDS] = [b""; MOST_WORDS];
    let mut count = 0;
    for word in line.split(|&byte| byte == b' ') {
        if count < MOST_WORDS {
            words[count] = word;
        }
        count += 1;
    }
    let expect = |wanted: usize| if count == wanted { Ok(()) } else { Err(Refusal::WrongWordCount) };
    let number = |at: usize| read_number(words[at]).ok_or(Refusal::WrongKindOfWord);
    let denomination = |at: usize| Denomination::read(words[at]).ok_or(Refusal::WrongKindOfWord);
    match words[0] {
        b"open" => {
            expect(4)?;
            let (a, b) = (number(1)?, number(2)?);
            let strict = match words[3] {
                b"free" => false,
                b"strict" => true,
                _ => return Err(Refusal::WrongKindOfWord),
            };
            Ok(Call::Open { a, b, strict })
        }
        b"issue" => {
            expect(5)?;
            let symbol = Symbol::read(words[3]).ok_or(Refusal::WrongKindOfWord)?;
            Ok(Call::Issue { c: number(1)?, u: number(2)?, symbol, n: number(4)? })
        }
        b"retire" => {
            expect(5)?;
            Ok(Call::Retire { c: number(1)?, u: number(2)?, denomination: denomination(3)?, n: number(4)? })
        }
        b"pay" => {
            expect(6)?;
            let (c, u, v) = (number(1)?, number(2)?, number(3)?);
            Ok(Call::Pay { c, u, v, denomination: denomination(4)?, n: number(5)? })
        }
        b"send" => {
            expect(8)?;
            let (c, k, u, v) = (number(1)?, number(2)?, number(3)?, number(4)?);
            Ok(Call::Send { c, k, u, v, denomination: denomination(5)?, n: number(6)?, t: number(7)? })
        }
        b"receive" => {
            expect(4)?;
            Ok(Call::Receive { l: number(1)?, d: number(2)?, s: number(3)? })
        }
        b"ack" => {
            expect(4)?;
            Ok(Call::Ack { l: number(1)?, d: number(2)?, s: number(3)? })
        }
        b"timeout" => {
            expect(4)?;
            Ok(Call::Timeout { l: number(1)?, d: number(2)?, s: number(3)? })
        }
        b"tick" => {
            expect(3)?;
            Ok(Call::Tick { c: number(1)?, n: number(2)? })
        }
        b"bar" => {
            expect(3)?;
            Ok(Call::Bar { c: number(1)?, u: number(2)? })
        }
        b"unbar" => {
            expect(3)?;
            Ok(Call::Unbar { c: number(1)?, u: number(2)? })
        }
        b"home" => {
            expect(3)?;
            Ok(Call::Home { c: number(1)?, denomination: denomination(2)? })
        }
        b"audit" => {
            expect(1)?;
            Ok(Call::Audit)
        }
        _ => Err(Refusal::NoCommand),
    }
}

fn apply(world: &mut World, call: &Call) -> Result<Answer, Refusal> {
    match call {
        Call::Open { a, b, strict } => world.open(*a, *b, *strict).map(Answer::Number),
        Call::Issue { c, u, symbol, n } => world.issue(*c, *u, *symbol, *n).map(|()| Answer::Done),
        Call::Retire { c, u, denomination, n } => world.retire(*c, *u, denomination, *n).map(|()| Answer::Done),
        Call::Pay { c, u, v, denomination, n } => world.pay(*c, *u, *v, denomination, *n).map(|()| Answer::Done),
        Call::Send { c, k, u, v, denomination, n, t } => {
            world.send(*c, *k, *u, *v, denomination, *n, *t).map(Answer::Number)
        }
        Call::Receive { l, d, s } => world.receive(*l, *d, *s).map(|mark| Answer::Number(u64::from(mark))),
        Call::Ack { l, d, s } => world.ack(*l, *d, *s).map(|()| Answer::Done),
        Call::Timeout { l, d, s } => world.timeout(*l, *d, *s).map(|()| Answer::Done),
        Call::Tick { c, n } => world.tick(*c, *n).map(|()| Answer::Done),
        Call::Bar { c, u } => world.set_bar(*c, *u, true).map(|()| Answer::Done),
        Call::Unbar { c, u } => world.set_bar(*c, *u, false).map(|()| Answer::Done),
        Call::Home { c, denomination } => world.home(*c, denomination).map(Answer::Home),
        Call::Audit => Ok(Answer::Audit),
    }
}

//! The line program of document 01 over the judge, written from 01 and from the text rules of DESIGN.md (2, item 10) alone.
//! A job comes in as bytes, and the whole output is given back.

use std::fmt::Write;

use crate::judge::{Call, Clifford, Form, Judge, Kind, Look, Reply};

/// The longest line, its newline left out. No legal line is longer than 78 bytes.
const LONGEST: usize = 80;
const MOST_DIGITS: usize = 10;
const MOST_QUBITS: u64 = 32;
const MOST_EVENTS: u64 = 48;

/// A line that is outside the rules, or that is not there.
struct Bad;

/// The output of a job.
pub fn run(job: &[u8]) -> String {
    watched(job, &mut |_, _, _| {})
}

/// The same; `watch` is shown every operation with its reply, and the judge after it.
pub fn watched(job: &[u8], watch: &mut dyn FnMut(&mut Judge, &Call, &Reply)) -> String {
    let mut out = String::new();
    let mut lines = Lines { rest: job, number: 0 };
    if let Err(Bad) = work(&mut lines, &mut out, watch) {
        tell(&mut out, format_args!("line={} answer=bad", lines.number));
    }
    out
}

fn work(lines: &mut Lines, out: &mut String, watch: &mut dyn FnMut(&mut Judge, &Call, &Reply)) -> Result<(), Bad> {
    let n = lines.needed(|t| t.field("qubits=")?.number_up_to(MOST_QUBITS))?;
    let form = lines.needed(|t| t.field("form=")?.form())?;
    let events = lines.needed(|t| t.field("events=")?.number_up_to(MOST_EVENTS))?;
    let steps = lines.needed(|t| t.field("steps=")?.number())?;
    let mut labels = Vec::new();
    for q in 0..n {
        labels.push(lines.needed(|t| t.label(q))?);
    }
    let mut judge = match Judge::open(n, form, &labels, events, steps) {
        Ok(judge) => judge,
        Err(k) => {
            tell(out, format_args!("open={k}"));
            return Ok(());
        }
    };
    while let Some(call) = lines.next(|t| t.call())? {
        let reply = judge.call(&call);
        watch(&mut judge, &call, &reply);
        let line = lines.number;
        match reply {
            Reply::Done => tell(out, format_args!("line={line} answer=0")),
            Reply::Event(id) => tell(out, format_args!("line={line} answer=0 id={id}")),
            Reply::Refused(k) => tell(out, format_args!("line={line} answer={k}")),
            Reply::Look(look) => tell_look(out, line, look),
        }
    }
    let (end, events) = (lines.number, judge.events());
    let live = events - judge.killed();
    tell(out, format_args!("end={end} events={events} live={live}"));
    Ok(())
}

fn tell_look(out: &mut String, line: u64, look: Look) {
    match look {
        Look::Found { id, sign, steps } => {
            tell(out, format_args!("line={line} look=found id={id} sign={sign} steps={steps}"));
        }
        Look::None { steps } => tell(out, format_args!("line={line} look=none steps={steps}")),
        Look::Blocked { steps } => tell(out, format_args!("line={line} look=blocked steps={steps}")),
        Look::Out { steps } => tell(out, format_args!("line={line} look=out steps={steps}")),
    }
}

fn tell(out: &mut String, text: std::fmt::Arguments) {
    writeln!(out, "{text}").expect("a string takes any text");
}

/// The lines not yet read, and the number of the last one that was asked for.
struct Lines<'a> {
    rest: &'a [u8],
    number: u64,
}

impl<'a> Lines<'a> {
    /// The next line, read whole by `read`; `None` at the end of the input, and then the number stays.
    fn next<T>(&mut self, read: impl FnOnce(&mut Text<'a>) -> Result<T, Bad>) -> Result<Option<T>, Bad> {
        if self.rest.is_empty() {
            return Ok(None);
        }
        self.number += 1;
        // A last line without its newline is bad.
        let length = self.rest.iter().position(|&b| b == b'\n').ok_or(Bad)?;
        let mut text = Text(&self.rest[..length]);
        self.rest = &self.rest[length + 1..];
        if length > LONGEST {
            return Err(Bad);
        }
        let value = read(&mut text)?;
        text.end()?;
        Ok(Some(value))
    }

    /// A line of the header or a label. If the input ends before it, that is bad with the number after the last line.
    fn needed<T>(&mut self, read: impl FnOnce(&mut Text<'a>) -> Result<T, Bad>) -> Result<T, Bad> {
        match self.next(read)? {
            Some(value) => Ok(value),
            None => {
                self.number += 1;
                Err(Bad)
            }
        }
    }
}

/// What is left of a line.
struct Text<'a>(&'a [u8]);

impl<'a> Text<'a> {
    fn end(&self) -> Result<(), Bad> {
        if self.0.is_empty() { Ok(()) } else { Err(Bad) }
    }

    /// Exactly this text.
    fn field(&mut self, name: &str) -> Result<&mut Self, Bad> {
        self.0 = self.0.strip_prefix(name.as_bytes()).ok_or(Bad)?;
        Ok(self)
    }

    /// What stands before the next space or the end.
    fn word(&mut self) -> &'a [u8] {
        let length = self.0.iter().position(|&b| b == b' ').unwrap_or(self.0.len());
        let (word, rest) = self.0.split_at(length);
        self.0 = rest;
        word
    }

    /// A decimal of one to ten digits without leading zeros.
    fn number(&mut self) -> Result<u64, Bad> {
        let word = self.word();
        let digits = (1..=MOST_DIGITS).contains(&word.len()) && word.iter().all(u8::is_ascii_digit);
        if !digits || (word[0] == b'0' && word.len() > 1) {
            return Err(Bad);
        }
        Ok(word.iter().fold(0, |sum, b| 10 * sum + u64::from(b - b'0')))
    }

    fn number_up_to(&mut self, most: u64) -> Result<u64, Bad> {
        let number = self.number()?;
        if number > most { Err(Bad) } else { Ok(number) }
    }

    fn tag(&mut self) -> Result<u32, Bad> {
        u32::try_from(self.number()?).map_err(|_| Bad)
    }

    /// 32 lowercase hex digits.
    fn hex(&mut self) -> Result<u128, Bad> {
        let word = self.word();
        let mut value = 0u128;
        for &b in word {
            let digit = match b {
                b'0'..=b'9' => b - b'0',
                b'a'..=b'f' => b - b'a' + 10,
                _ => return Err(Bad),
            };
            value = value << 4 | u128::from(digit);
        }
        if word.len() == 32 { Ok(value) } else { Err(Bad) }
    }

    fn form(&mut self) -> Result<Form, Bad> {
        match self.word() {
            b"scalar" => Ok(Form::Scalar),
            b"sliced" => Ok(Form::Sliced),
            _ => Err(Bad),
        }
    }

    fn kind(&mut self) -> Result<Kind, Bad> {
        match self.word() {
            b"x" => Ok(Kind::X),
            b"y" => Ok(Kind::Y),
            b"z" => Ok(Kind::Z),
            b"p" => Ok(Kind::P),
            _ => Err(Bad),
        }
    }

    /// The label line of qubit q.
    fn label(&mut self, q: u64) -> Result<(u128, u128), Bad> {
        if self.field("label=")?.number()? != q {
            return Err(Bad);
        }
        let x = self.field(" x=")?.hex()?;
        let z = self.field(" z=")?.hex()?;
        Ok((x, z))
    }

    /// An operation: the text before the first "=" says which.
    fn call(&mut self) -> Result<Call, Bad> {
        let length = self.0.iter().position(|&b| b == b'=').ok_or(Bad)?;
        let (name, rest) = self.0.split_at(length);
        self.0 = &rest[1..];
        match name {
            b"gate" => self.gate().map(Call::Gate),
            b"turn" => {
                let k = self.number()?;
                let kind = self.field(" kind=")?.kind()?;
                let q = self.field(" a=")?.number()?;
                Ok(Call::Turn { k, kind, q })
            }
            b"look" => {
                let kind = self.kind()?;
                let q = self.field(" a=")?.number()?;
                Ok(Call::Look { kind, q })
            }
            b"record" => {
                let kind = self.kind()?;
                let q = self.field(" a=")?.number()?;
                let tag = self.field(" tag=")?.tag()?;
                Ok(Call::Record { kind, q, tag })
            }
            b"measure" => self.number().map(Call::Measure),
            b"reset" => self.number().map(Call::Reset),
            b"ccx" => self.three().map(|(a, b, c)| Call::Ccx(a, b, c)),
            b"ccz" => self.three().map(|(a, b, c)| Call::Ccz(a, b, c)),
            b"kill" => self.number().map(Call::Kill),
            b"clear" => match self.word() {
                b"all" => Ok(Call::Clear),
                _ => Err(Bad),
            },
            _ => Err(Bad),
        }
    }

    fn three(&mut self) -> Result<(u64, u64, u64), Bad> {
        let a = self.number()?;
        let b = self.field(" b=")?.number()?;
        let c = self.field(" c=")?.number()?;
        Ok((a, b, c))
    }

    fn gate(&mut self) -> Result<Clifford, Bad> {
        let one: fn(u64) -> Clifford = match self.word() {
            b"h" => Clifford::H,
            b"x" => Clifford::X,
            b"y" => Clifford::Y,
            b"z" => Clifford::Z,
            b"s" => Clifford::S,
            b"sdg" => Clifford::Sdg,
            b"sx" => Clifford::Sx,
            b"cnot" => return self.pair(Clifford::Cnot),
            b"cz" => return self.pair(Clifford::Cz),
            b"cy" => return self.pair(Clifford::Cy),
            b"swap" => return self.pair(Clifford::Swap),
            _ => return Err(Bad),
        };
        Ok(one(self.field(" a=")?.number()?))
    }

    fn pair(&mut self, two: fn(u64, u64) -> Clifford) -> Result<Clifford, Bad> {
        let a = self.field(" a=")?.number()?;
        let b = self.field(" b=")?.number()?;
        Ok(two(a, b))
    }
}

//! Scenarios as JSON.

use crate::class::Class;
use crate::lines::List;
use crate::operation::Operation;
use crate::scenario::{BadBlock, Order, PartSpec, Scenario, ThreadSpec};
use std::fmt::{self, Display, Formatter};
use std::io::{self, Write};

/// Writes a scenario on one line, with its keys in the order in which they are read.
pub fn write(scenario: &Scenario, out: &mut impl Write) -> io::Result<()> {
    let has_bad = scenario.parts.iter().any(|part| !part.bad.is_empty());
    writeln!(
        out,
        r#"{{"version":{},"schedule":{},"parts":{},"threads":{}}}"#,
        if has_bad { 2 } else { 1 },
        Json(&scenario.order),
        Json(scenario.parts.as_slice()),
        Json(scenario.threads.as_slice())
    )
}

/// A value as JSON.
pub struct Json<T>(pub T);

impl<'v, T> Display for Json<&'v [T]>
where
    Json<&'v T>: Display,
{
    fn fmt(&self, f: &mut Formatter) -> fmt::Result {
        f.write_str("[")?;
        for (index, item) in self.0.iter().enumerate() {
            let comma = if index > 0 { "," } else { "" };
            write!(f, "{comma}{}", Json(item))?;
        }
        f.write_str("]")
    }
}

impl Display for Json<&Order> {
    fn fmt(&self, f: &mut Formatter) -> fmt::Result {
        match self.0 {
            Order::RoundRobin => f.write_str(r#"{"kind":"round_robin"}"#),
            Order::Drawn { start } => write!(f, r#"{{"kind":"drawn","start":{start}}}"#),
            Order::Listed { picks } => {
                let picks: Vec<u32> = picks.iter().map(|pick| u32::from(*pick)).collect();
                write!(f, r#"{{"kind":"listed","picks":{}}}"#, List(&picks))
            }
        }
    }
}

impl Display for Json<&PartSpec> {
    fn fmt(&self, f: &mut Formatter) -> fmt::Result {
        let part = self.0;
        let (name, class) = (&part.name, part.class.name());
        write!(f, r#"{{"name":"{name}","class":"{class}""#)?;
        if part.class == Class::Block {
            write!(f, r#","blocks":{}"#, part.blocks)?;
        }
        if !part.bad.is_empty() {
            write!(f, r#","bad":{}"#, Json(part.bad.as_slice()))?;
        }
        let (limit, image, faults) = (part.limit, &part.image, Json(part.faults.as_slice()));
        write!(
            f,
            r#","limit":{limit},"driver":{{"image":{image}}},"faults":{faults}"#
        )?;
        if part.class == Class::Net {
            let frames: Vec<List> = part.arrivals.iter().map(|frame| List(frame)).collect();
            write!(f, r#","arrivals":{}"#, Json(frames.as_slice()))?;
        }
        f.write_str("}")
    }
}

impl Display for Json<&List<'_>> {
    fn fmt(&self, f: &mut Formatter) -> fmt::Result {
        self.0.fmt(f)
    }
}

impl Display for Json<&BadBlock> {
    fn fmt(&self, f: &mut Formatter) -> fmt::Result {
        let BadBlock { block, after } = self.0;
        write!(f, r#"{{"block":{block},"after":{after}}}"#)
    }
}

impl Display for Json<&ThreadSpec> {
    fn fmt(&self, f: &mut Formatter) -> fmt::Result {
        let ThreadSpec { name, operations } = self.0;
        write!(
            f,
            r#"{{"name":"{name}","ops":{}}}"#,
            Json(operations.as_slice())
        )
    }
}

impl Display for Json<&(usize, Operation)> {
    fn fmt(&self, f: &mut Formatter) -> fmt::Result {
        let (part, operation) = self.0;
        write!(f, r#"{{"part":{part},"op":"#)?;
        match operation {
            Operation::Read { first, count } => {
                write!(f, r#""read","first":{first},"count":{count}}}"#)
            }
            Operation::Write { first, data } => {
                write!(f, r#""write","first":{first},"data":{}}}"#, List(data))
            }
            Operation::Send { frame } => write!(f, r#""send","frame":{}}}"#, List(frame)),
            Operation::Receive => f.write_str(r#""recv"}"#),
            Operation::Open => f.write_str(r#""open"}"#),
            Operation::Play { samples } => {
                write!(f, r#""play","samples":{}}}"#, List(samples))
            }
            Operation::Close => f.write_str(r#""close"}"#),
            Operation::Get { key } => write!(f, r#""get","key":{key}}}"#),
            Operation::Set { key, value } => {
                write!(f, r#""set","key":{key},"value":{value}}}"#)
            }
        }
    }
}

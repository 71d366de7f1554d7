//! Scenarios, and how they are read.

use crate::assembler::assemble;
use crate::class::Class;
use crate::fault::{self, Fault};
use crate::fields::{each, items, number, some_items, text, word, Object, Rows};
use crate::image::{self, read_class, Image};
use crate::journal::Words;
use crate::json::Value;
use crate::operation::Operation;
use crate::refusal::{Cause, Read, Refusal, Within};

/// The faults of a part.
pub const MOST_FAULTS: usize = 64;

pub struct Scenario {
    pub order: Order,
    pub parts: Vec<PartSpec>,
    pub threads: Vec<ThreadSpec>,
}

#[derive(Default)]
pub enum Order {
    #[default]
    RoundRobin,
    Drawn {
        start: u64,
    },
    Listed {
        picks: Vec<u16>,
    },
}

pub struct PartSpec {
    pub name: String,
    pub class: Class,
    pub blocks: u32,
    pub bad: Vec<BadBlock>,
    pub limit: u32,
    pub image: Image,
    /// In the order of the scenario.
    pub faults: Vec<Fault>,
    pub arrivals: Vec<Words>,
}

/// A block that fails after this many commands.
pub struct BadBlock {
    pub block: u32,
    pub after: u32,
}

pub struct ThreadSpec {
    pub name: String,
    /// The part and the operation.
    pub operations: Vec<(usize, Operation)>,
}

impl ThreadSpec {
    /// The operations on a part, in order.
    pub fn operations_on(&self, part: usize) -> Vec<&Operation> {
        let operations = self.operations.iter();
        let own = operations.filter(|(own, _)| *own == part);
        own.map(|(_, operation)| operation).collect()
    }
}

/// The format of a scenario. Version 2 has bad blocks.
#[derive(Clone, Copy, PartialEq, Eq)]
enum Version {
    One,
    Two,
}

pub fn read(value: &Value) -> Read<Scenario> {
    let root = Object::with_keys(value, &["version", "schedule", "parts", "threads"])?;
    let version = match root.number("version", 1..=2)? {
        1 => Version::One,
        _ => Version::Two,
    };
    let order = root.optional("schedule", read_order)?;
    let parts = root.required("parts", |value| read_parts(value, version))?;
    let threads = root.required("threads", |value| read_threads(value, parts.len()))?;
    Ok(Scenario {
        order,
        parts,
        threads,
    })
}

fn read_parts(value: &Value, version: Version) -> Read<Vec<PartSpec>> {
    let mut parts: Vec<PartSpec> = Vec::new();
    for (index, part) in some_items(value, 8)?.iter().enumerate() {
        let names = parts.iter().map(|earlier| earlier.name.as_str());
        let part = read_part(part, version, names).within(index)?;
        parts.push(part);
    }
    Ok(parts)
}

fn read_threads(value: &Value, parts: usize) -> Read<Vec<ThreadSpec>> {
    let mut threads: Vec<ThreadSpec> = Vec::new();
    for (index, thread) in items(value, 16)?.iter().enumerate() {
        let names = threads.iter().map(|earlier| earlier.name.as_str());
        let thread = read_thread(thread, parts, names).within(index)?;
        threads.push(thread);
    }
    Ok(threads)
}

/// A name that no earlier part or thread has.
fn read_name<'n>(value: &Value, mut earlier: impl Iterator<Item = &'n str>) -> Read<String> {
    let name = text(value)?;
    let is_name = (1..=16).contains(&name.len())
        && name
            .bytes()
            .all(|byte| matches!(byte, b'a'..=b'z' | b'0'..=b'9' | b'_'));
    if !is_name {
        Refusal::here(Cause::WrongKind)
    } else if earlier.any(|other| other == name) {
        Refusal::here(Cause::DoubleName)
    } else {
        Ok(name.to_string())
    }
}

const ORDERS: Rows = &[
    ("round_robin", &[]),
    ("drawn", &["start"]),
    ("listed", &["picks"]),
];

fn read_order(value: &Value) -> Read<Order> {
    let fields = Object::any(value)?;
    Ok(match fields.kind("kind", &[], ORDERS)? {
        "drawn" => Order::Drawn {
            start: fields.number("start", 0..=u64::MAX)?,
        },
        "listed" => Order::Listed {
            picks: fields.required("picks", |value| each(items(value, 65_536)?, read_pick))?,
        },
        _ => Order::RoundRobin,
    })
}

fn read_pick(value: &Value) -> Read<u16> {
    Ok(number(value, 0..=65_535)? as u16)
}

fn read_part<'n>(
    value: &Value,
    version: Version,
    earlier: impl Iterator<Item = &'n str>,
) -> Read<PartSpec> {
    let fields = Object::any(value)?;
    let class = fields.required("class", read_class)?;
    let own: &[&str] = match class {
        Class::Block if version == Version::Two => &["blocks", "bad"],
        Class::Block => &["blocks"],
        Class::Net => &["arrivals"],
        Class::Sound => &[],
    };
    fields.expect_keys(&[&["name", "class", "limit", "driver", "faults"], own])?;
    let name = fields.required("name", |value| read_name(value, earlier))?;
    let blocks = match class {
        Class::Block => fields.number("blocks", 1..=256)?,
        _ => 0,
    };
    let bad = fields.optional("bad", |value| {
        each(items(value, 64)?, |bad| read_bad(bad, blocks))
    })?;
    let limit = fields.optional("limit", |value| number(value, 0..=16))?;
    let image = fields.required("driver", |value| read_driver(value, class))?;
    let faults = fields.optional("faults", |value| {
        each(items(value, MOST_FAULTS)?, fault::read)
    })?;
    let arrivals = fields.optional("arrivals", |value| each(items(value, 256)?, read_frame))?;
    Ok(PartSpec {
        name,
        class,
        blocks: blocks as u32,
        bad,
        limit: limit as u32,
        image,
        faults,
        arrivals,
    })
}

fn read_bad(value: &Value, blocks: u64) -> Read<BadBlock> {
    let fields = Object::with_keys(value, &["block", "after"])?;
    Ok(BadBlock {
        block: fields.number("block", 0..=blocks - 1)? as u32,
        after: fields.word("after")?,
    })
}

fn read_frame(value: &Value) -> Read<Words> {
    each(some_items(value, 64)?, word)
}

fn read_driver(value: &Value, class: Class) -> Read<Image> {
    let fields = Object::with_keys(value, &["image", "asm"])?;
    let image = match (fields.has("image"), fields.has("asm")) {
        (true, true) => return Refusal::here(Cause::UnknownKey),
        (false, true) => fields.required("asm", |value| read_assembler(text(value)?.as_bytes()))?,
        _ => fields.required("image", image::read)?,
    };
    if image.class == class {
        Ok(image)
    } else {
        Refusal::here(Cause::BadImage)
    }
}

fn read_assembler(text: &[u8]) -> Read<Image> {
    match assemble(text) {
        Ok(assembled) => Ok(assembled.image),
        Err(fault) => Refusal::here(Cause::BadAssembler(fault)),
    }
}

fn read_thread<'n>(
    value: &Value,
    parts: usize,
    earlier: impl Iterator<Item = &'n str>,
) -> Read<ThreadSpec> {
    let fields = Object::with_keys(value, &["name", "ops"])?;
    Ok(ThreadSpec {
        name: fields.required("name", |value| read_name(value, earlier))?,
        operations: fields.required("ops", |value| {
            each(items(value, 256)?, |operation| {
                read_operation(operation, parts)
            })
        })?,
    })
}

const OPERATIONS: Rows = &[
    ("read", &["first", "count"]),
    ("write", &["first", "data"]),
    ("send", &["frame"]),
    ("recv", &[]),
    ("open", &[]),
    ("play", &["samples"]),
    ("close", &[]),
    ("get", &["key"]),
    ("set", &["key", "value"]),
];

fn read_operation(value: &Value, parts: usize) -> Read<(usize, Operation)> {
    let fields = Object::any(value)?;
    let name = fields.kind("op", &["part"], OPERATIONS)?;
    let part = fields.number("part", 0..=parts as u64 - 1)?;
    Ok((part as usize, read_asked(name, &fields)?))
}

fn read_asked(name: &str, fields: &Object) -> Read<Operation> {
    let words = |key| fields.required(key, |value| each(items(value, 256)?, word));
    Ok(match name {
        "read" => Operation::Read {
            first: fields.word("first")?,
            count: fields.word("count")?,
        },
        "write" => Operation::Write {
            first: fields.word("first")?,
            data: words("data")?,
        },
        "send" => Operation::Send {
            frame: words("frame")?,
        },
        "recv" => Operation::Receive,
        "open" => Operation::Open,
        "play" => Operation::Play {
            samples: words("samples")?,
        },
        "close" => Operation::Close,
        "get" => Operation::Get {
            key: fields.word("key")?,
        },
        _ => Operation::Set {
            key: fields.word("key")?,
            value: fields.word("value")?,
        },
    })
}

//! The generated scenarios: a disk whose driver fails, a link and a sound device, with four threads.

use crate::assembler::assemble;
use crate::class::Class;
use crate::fault::{Fault, FaultKind};
use crate::image::Image;
use crate::operation::{Operation, BLOCK_WORDS};
use crate::scenario::{Order, PartSpec, Scenario, ThreadSpec};

const THREADS: u32 = 4;
const DISK_BLOCKS: u32 = 64;
const LIMIT: u32 = 16;

/// The generated scenario of a size from 1 to 256.
pub fn scenario(size: u32) -> Scenario {
    let fault = |index: u32| Fault {
        burst: 5 * index,
        after: 40,
        kind: FaultKind::Trap,
    };
    let disk = part("disk", Class::Block, BLOCK);
    let link = part("link", Class::Net, NET);
    let audio = part("audio", Class::Sound, SOUND);
    Scenario {
        order: Order::Drawn { start: size.into() },
        parts: vec![
            PartSpec {
                blocks: DISK_BLOCKS,
                faults: (1..=8).map(fault).collect(),
                ..disk
            },
            PartSpec {
                arrivals: (1..=size).map(|word| [word].into()).collect(),
                ..link
            },
            audio,
        ],
        threads: (0..THREADS).map(|thread| script(thread, size)).collect(),
    }
}

fn part(name: &str, class: Class, code: &str) -> PartSpec {
    PartSpec {
        name: name.to_string(),
        class,
        blocks: 0,
        bad: Vec::new(),
        limit: LIMIT,
        image: driver(class, code),
        faults: Vec::new(),
        arrivals: Vec::new(),
    }
}

fn script(thread: u32, size: u32) -> ThreadSpec {
    ThreadSpec {
        name: format!("t{thread}"),
        operations: (0..size).map(|index| operation(thread, index)).collect(),
    }
}

fn operation(thread: u32, index: u32) -> (usize, Operation) {
    let block = 16 * thread + index;
    match (thread + index) % 6 {
        0 => (
            0,
            Operation::Write {
                first: block % DISK_BLOCKS,
                data: [1000 * thread + index; BLOCK_WORDS].into(),
            },
        ),
        1 => (
            0,
            Operation::Read {
                first: (block + DISK_BLOCKS - 1) % DISK_BLOCKS,
                count: 1,
            },
        ),
        2 => (
            1,
            Operation::Send {
                frame: [thread, index].into(),
            },
        ),
        3 => (1, Operation::Receive),
        4 => (
            2,
            Operation::Set {
                key: 1,
                value: index % 11,
            },
        ),
        _ => (2, Operation::Get { key: 1 }),
    }
}

/// A driver each of whose entries begins at the label of its name.
fn driver(class: Class, code: &str) -> Image {
    let mut text = format!(".class {}\n", class.name());
    for entry in class.entries() {
        text += &format!(".entry {0} {0}\n", entry.name());
    }
    let statements = [code, CONFIGURATION].concat().replace('/', "\n");
    match assemble((text + &statements).as_bytes()) {
        Ok(assembled) => assembled.image,
        Err(fault) => unreachable!("the driver's text is right, but for {fault:?}"),
    }
}

const BLOCK: &str = "
init:  LI r1 0 / KCALL 3 / LI r1 0 / RET r1
read:  LI r5 16 / LI r6 1
rblk:  OUT r1 1 / OUT r6 0 / LI r7 0
rword: IN r8 2 / ST r8 r3 0 / ADDI r3 r3 1 / ADDI r7 r7 1 / BLT r7 r5 rword
       ADDI r1 r1 1 / SUB r2 r6 / BNE r2 r0 rblk / RET r0
write: LI r5 16 / LI r6 1 / LI r9 2
wblk:  OUT r1 1 / LI r7 0
wword: LD r8 r3 0 / OUT r8 2 / ADDI r3 r3 1 / ADDI r7 r7 1 / BLT r7 r5 wword
       OUT r9 0 / ADDI r1 r1 1 / SUB r2 r6 / BNE r2 r0 wblk / RET r0
";

const NET: &str = "
init:  LI r1 1 / KCALL 3 / LI r1 0 / RET r1
send:  OUT r2 1 / LI r6 1
snext: LD r8 r3 0 / OUT r8 2 / ADDI r3 r3 1 / SUB r2 r6 / BNE r2 r0 snext
       OUT r6 0 / RET r0
poll:  IN r2 3 / BEQ r2 r0 pend / MOV r7 r2 / MOV r9 r14 / LI r5 64 / SUB r9 r5
       MOV r10 r9 / LI r6 1
pnext: IN r8 4 / ST r8 r9 0 / ADDI r9 r9 1 / SUB r7 r6 / BNE r7 r0 pnext
       LI r6 2 / OUT r6 0 / MOV r1 r10 / KCALL 6
pend:  RET r0
";

const SOUND: &str = "
init:  LI r1 2 / KCALL 3 / LI r1 0 / RET r1
open:  RET r0
close: RET r0
play:  LI r6 1
pl:    LD r8 r3 0 / OUT r8 0 / ADDI r3 r3 1 / SUB r2 r6 / BNE r2 r0 pl
       RET r0
";

const CONFIGURATION: &str = "
get:   LI r5 1 / BEQ r1 r5 g1 / LI r5 2 / BEQ r1 r5 g2 / LI r5 3 / BEQ r1 r5 g3
       IN r6 8 / JMP gend
g1:    IN r6 9 / JMP gend
g2:    IN r6 10 / JMP gend
g3:    IN r6 11
gend:  ST r6 r3 0 / RET r0
set:   LI r5 1 / BEQ r1 r5 s1 / LI r5 2 / BEQ r1 r5 s2 / LI r5 3 / BEQ r1 r5 s3
       OUT r2 8 / RET r0
s1:    OUT r2 9 / RET r0
s2:    OUT r2 10 / RET r0
s3:    OUT r2 11 / RET r0
";

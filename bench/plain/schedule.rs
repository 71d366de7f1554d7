//! In what order the actors take their steps.

use crate::scenario::Order;

pub enum Schedule<'s> {
    RoundRobin { cursor: usize },
    Drawn(Generator),
    Listed { picks: std::slice::Iter<'s, u16> },
}

impl<'s> Schedule<'s> {
    pub fn new(order: &'s Order) -> Schedule<'s> {
        match order {
            Order::RoundRobin => Schedule::RoundRobin { cursor: 0 },
            Order::Drawn { start } => Schedule::Drawn(Generator::new(*start)),
            Order::Listed { picks } => Schedule::Listed {
                picks: picks.iter(),
            },
        }
    }

    /// The actor that goes next, of this many. None if none can go.
    pub fn pick(&mut self, actors: usize, can_go: impl Fn(usize) -> bool) -> Option<usize> {
        match self {
            Schedule::RoundRobin { cursor } => {
                let actor = (*cursor..actors)
                    .chain(0..*cursor)
                    .find(|actor| can_go(*actor))?;
                *cursor = actor + 1;
                Some(actor)
            }
            Schedule::Drawn(generator) => {
                let ready: Vec<usize> = (0..actors).filter(|actor| can_go(*actor)).collect();
                if ready.is_empty() {
                    return None;
                }
                Some(ready[generator.next() as usize % ready.len()])
            }
            Schedule::Listed { picks } => {
                let picked = picks
                    .map(|pick| usize::from(*pick))
                    .find(|actor| *actor < actors && can_go(*actor));
                picked.or_else(|| {
                    *self = Schedule::RoundRobin { cursor: 0 };
                    self.pick(actors, can_go)
                })
            }
        }
    }
}

/// The generator PCG with 64 bits of state and 32 of output.
pub struct Generator {
    state: u64,
    increment: u64,
}

const MULTIPLIER: u64 = 6_364_136_223_846_793_005;
const SEED_INCREMENT: u64 = 11_634_580_027_462_260_723;

impl Generator {
    /// A generator whose own seed is four words of another one, which begins at the start.
    pub fn new(start: u64) -> Generator {
        let mut seeder = Generator {
            state: start,
            increment: SEED_INCREMENT,
        };
        let mut seed = || {
            let (low, high) = (seeder.seed_word(), seeder.seed_word());
            u64::from(high) << 32 | u64::from(low)
        };
        let (state, increment) = (seed(), seed() | 1);
        let mut generator = Generator {
            state: state.wrapping_add(increment),
            increment,
        };
        generator.advance();
        generator
    }

    fn seed_word(&mut self) -> u32 {
        self.advance();
        self.output()
    }

    fn next(&mut self) -> u32 {
        let word = self.output();
        self.advance();
        word
    }

    fn advance(&mut self) {
        self.state = self
            .state
            .wrapping_mul(MULTIPLIER)
            .wrapping_add(self.increment);
    }

    fn output(&self) -> u32 {
        let mixed = ((self.state >> 18 ^ self.state) >> 27) as u32;
        mixed.rotate_right((self.state >> 59) as u32)
    }
}

//! What is drawn, as in crates/tree_benches. A mix is a type of its own, so that its numbers are constants in the loop.

#[derive(Clone, Copy)]
pub enum Op {
    Put { key: u64, value: u64 },
    Get { key: u64 },
    Del { key: u64 },
}

/// The draws of crates/workload.
pub struct Draws(pub u64);

impl Draws {
    pub fn draw(&mut self) -> u64 {
        self.0 = self.0.wrapping_mul(6_364_136_223_846_793_005).wrapping_add(1_442_695_040_888_963_407);
        self.0 >> 33
    }
}

pub trait Mix: Copy + Send + Sync {
    fn name(self) -> String;
    fn keys(self) -> u64;
    fn draw(self, draws: &mut Draws, place: u64) -> Op;

    /// How many puts of drawn keys come first: about half of the keys are there then.
    fn first_puts(self) -> u64 {
        self.keys() * 7 / 10
    }
}

/// So many of 100 are gets, the others puts and dels.
#[derive(Clone, Copy)]
pub struct Uniform<const GETS: u64, const KEYS: u64>;

impl<const GETS: u64, const KEYS: u64> Mix for Uniform<GETS, KEYS> {
    fn name(self) -> String {
        format!("{GETS} of 100 gets on {KEYS} keys")
    }

    fn keys(self) -> u64 {
        KEYS
    }

    fn draw(self, draws: &mut Draws, _place: u64) -> Op {
        let kind = draws.draw() % 100;
        let key = draws.draw() % KEYS;
        op_of(GETS, kind, key)
    }
}

/// 90 of 100 are gets, on a number of keys that isn't known before.
#[derive(Clone, Copy)]
pub struct MostlyGets {
    pub keys: u32,
}

impl Mix for MostlyGets {
    fn name(self) -> String {
        format!("90 of 100 gets on {} keys", self.keys)
    }

    fn keys(self) -> u64 {
        u64::from(self.keys)
    }

    fn draw(self, draws: &mut Draws, _place: u64) -> Op {
        let kind = draws.draw() % 100;
        let key = draws.draw() as u32 % self.keys;
        op_of(90, kind, u64::from(key))
    }
}

/// So many of 100 are gets, on so many keys, which aren't known before. A draw has 31 bits, and the upper ones choose: a division would take as
/// long as a step of a search.
#[derive(Clone, Copy)]
pub struct Drawn {
    pub gets: u64,
    pub keys: u64,
}

impl Mix for Drawn {
    fn name(self) -> String {
        format!("{}/{}", self.gets, self.keys)
    }

    fn keys(self) -> u64 {
        self.keys
    }

    fn draw(self, draws: &mut Draws, _place: u64) -> Op {
        let kind = (draws.draw() * 100) >> 31;
        let key = (draws.draw() * self.keys) >> 31;
        op_of(self.gets, kind, key)
    }
}

/// The operations of the command `load`: two of four are puts and one is a get, on 4,096 keys that each thread has for itself.
#[derive(Clone, Copy)]
pub struct Load;

impl Mix for Load {
    fn name(self) -> String {
        "the operations of load".to_string()
    }

    fn keys(self) -> u64 {
        16_384
    }

    fn first_puts(self) -> u64 {
        0
    }

    fn draw(self, draws: &mut Draws, place: u64) -> Op {
        let kind = draws.draw() % 4;
        let key = 64 * (draws.draw() % 4096) + place;
        match kind {
            0 | 1 => Op::Put { key, value: draws.draw() },
            2 => Op::Get { key },
            _ => Op::Del { key },
        }
    }
}

fn op_of(gets: u64, kind: u64, key: u64) -> Op {
    if kind < gets {
        Op::Get { key }
    } else if kind % 2 == 0 {
        Op::Put { key, value: kind }
    } else {
        Op::Del { key }
    }
}

//! The outside vectors of `data/`, as far as making and sealing go. Another
//! implementation made them; what they expect are facts.
//!
//! | file | what is read of it |
//! |---|---|
//! | `sample_keys.json`, `level_keys.json` | the seeds of each pair of keys, which mixing seed is taken (`used`), both keys as their SHA-256 and at the sample level in full (`pk`, `sk`), and the tickets that have a seed, with their hash and key |
//! | `refusals.json` | the calls of make and of seal: buffers before the call, work memory (`work`), `capacity`, and the fault they answer, or null |
//! | `shuffle.json` | length and seed, and the order of the shuffled numbers, or its SHA-256 |

use crate::fault::{Fault, Layer, Part};
use crate::hash::{Hash, Kind, CAPACITY};
use crate::json::{parse, Value};
use crate::level::{Level, Room, LEVELS};
use crate::make;
use crate::seal::Order;
use crate::sha2::sha256;
use crate::shuffle::Seed;

const SAMPLE_KEYS: &str = include_str!("../data/sample_keys.json");
const LEVEL_KEYS: &str = include_str!("../data/level_keys.json");
const REFUSALS: &str = include_str!("../data/refusals.json");
const SHUFFLES: &str = include_str!("../data/shuffle.json");

/// A pair of keys with the seeds that it was made from.
pub struct Pair {
    pub level: &'static Level,
    pub code_seed: Seed,
    pub mixing_seeds: Vec<Seed>,
    pub decoy_seed: Seed,
    /// Which of the mixing seeds was taken.
    pub used: usize,
    pub public_key: Written,
    pub secret_key: Written,
    /// Tickets sealed to it.
    pub sealed: Vec<Sealed>,
}

/// A key by its SHA-256, and at the level `sample` in full; the larger ones would
/// fill megabytes.
pub struct Written {
    digest: Vec<u8>,
    full: Option<Vec<u8>>,
}

impl Written {
    pub fn is(&self, key: &[u8]) -> bool {
        sha256(key)[..] == self.digest[..] && self.full.as_ref().is_none_or(|full| full == key)
    }
}

impl Pair {
    /// The make that gives this pair.
    pub fn order(&self) -> make::Order<'_> {
        make::Order {
            level: self.level.name.as_bytes(),
            code_seed: &self.code_seed,
            mixing_seeds: self.mixing_seeds.as_flattened(),
            decoy_seed: &self.decoy_seed,
            room: self.level.room,
        }
    }
}

pub fn pairs() -> Vec<Pair> {
    [records(SAMPLE_KEYS), records(LEVEL_KEYS)].concat().iter().map(pair).collect()
}

fn pair(pair: &Value) -> Pair {
    let mixing_seeds = pair.get("mixing").and_then(Value::list).expect("mixing seeds");
    let key = |name: &str| Written {
        digest: bytes(pair, &format!("{name}_sha256")),
        full: pair.get(name).map(|_| bytes(pair, name)),
    };
    Pair {
        level: level(pair),
        code_seed: seed(pair, "code"),
        mixing_seeds: mixing_seeds
            .iter()
            .map(|seed| digits(seed.text().expect("digits")).try_into().expect("a seed"))
            .collect(),
        decoy_seed: seed(pair, "decoy"),
        used: pair.get("used").map(size).expect("a number"),
        public_key: key("pk"),
        secret_key: key("sk"),
        sealed: sealed_to(pair),
    }
}

/// A ticket that was sealed from a seed, with its key. The public key is there at
/// the level `sample` only.
pub struct Sealed {
    pub level: &'static Level,
    pub public_key: Option<Vec<u8>>,
    pub kind: Kind,
    pub seed: Seed,
    pub ticket: Vec<u8>,
    pub key: Vec<u8>,
}

pub fn sealed() -> Vec<Sealed> {
    pairs().into_iter().flat_map(|pair| pair.sealed).collect()
}

fn sealed_to(pair: &Value) -> Vec<Sealed> {
    let tickets = pair.get("tickets").and_then(Value::list).expect("tickets");
    let from_seeds = tickets.iter().filter(|ticket| ticket.get("seed").is_some());
    from_seeds
        .map(|ticket| Sealed {
            level: level(pair),
            public_key: pair.get("pk").map(|_| bytes(pair, "pk")),
            kind: kind(text(ticket, "hash")),
            seed: seed(ticket, "seed"),
            ticket: bytes(ticket, "ticket"),
            key: bytes(ticket, "key"),
        })
        .collect()
}

/// A make with its buffers as they are before it, and what it answers.
pub struct MakeCall {
    pub note: String,
    level: String,
    code_seed: Vec<u8>,
    mixing_seeds: Vec<u8>,
    decoy_seed: Vec<u8>,
    pub public_key: Vec<u8>,
    pub secret_key: Vec<u8>,
    room: Room,
    pub answer: Result<(), Fault>,
}

impl MakeCall {
    pub fn order(&self) -> make::Order<'_> {
        make::Order {
            level: self.level.as_bytes(),
            code_seed: &self.code_seed,
            mixing_seeds: &self.mixing_seeds,
            decoy_seed: &self.decoy_seed,
            room: self.room,
        }
    }
}

pub fn makes() -> Vec<MakeCall> {
    let calls = records(REFUSALS);
    calls.iter().filter(|call| text(call, "call") == "make").map(make_call).collect()
}

fn make_call(call: &Value) -> MakeCall {
    MakeCall {
        note: text(call, "note").to_owned(),
        level: text(call, "level").to_owned(),
        code_seed: bytes(call, "code"),
        mixing_seeds: bytes(call, "mixing"),
        decoy_seed: bytes(call, "decoy"),
        public_key: bytes(call, "pk"),
        secret_key: bytes(call, "sk"),
        room: call.get("work").map_or(LEVELS[3].room, room),
        answer: answer(call.get("expect").expect("expect")),
    }
}

/// A seal with its buffers as they are before it, and what it answers.
pub struct SealCall {
    pub note: String,
    level: String,
    public_key: Vec<u8>,
    ticket_seed: Vec<u8>,
    pub ticket: Vec<u8>,
    pub key: Vec<u8>,
    capacity: usize,
    room: Room,
    pub answer: Result<(), Fault>,
}

impl SealCall {
    pub fn order(&self, kind: Kind) -> Order<'_> {
        Order {
            level: self.level.as_bytes(),
            public_key: &self.public_key,
            ticket_seed: &self.ticket_seed,
            hash: Hash::new(kind, self.capacity),
            room: self.room,
        }
    }
}

pub fn seals() -> Vec<SealCall> {
    let calls = records(REFUSALS);
    calls.iter().filter(|call| text(call, "call") == "seal").map(seal_call).collect()
}

fn seal_call(call: &Value) -> SealCall {
    SealCall {
        note: text(call, "note").to_owned(),
        level: text(call, "level").to_owned(),
        public_key: bytes(call, "pk"),
        ticket_seed: bytes(call, "seed"),
        ticket: bytes(call, "ticket"),
        key: bytes(call, "key"),
        capacity: call.get("capacity").map_or(CAPACITY, size),
        room: call.get("work").map_or(LEVELS[3].room, room),
        answer: answer(call.get("expect").expect("expect")),
    }
}

fn answer(expect: &Value) -> Result<(), Fault> {
    if *expect == Value::Null {
        return Ok(());
    }
    let number = expect.get("number").map(size).expect("a number");
    Err(Fault {
        number: number.try_into().expect("a small number"),
        layer: layer(text(expect, "layer")),
        part: part(text(expect, "part")),
        place: expect.get("place").map(size).expect("a place"),
    })
}

fn layer(name: &str) -> Layer {
    match name {
        "call" => Layer::Call,
        "hatch" => Layer::Hatch,
        "hash" => Layer::Hash,
        "key" => Layer::Key,
        "line" => Layer::Line,
        _ => panic!("no layer: {name}"),
    }
}

fn part(name: &str) -> Part {
    match name {
        "none" => Part::None,
        "support" => Part::Support,
        "coefficient" => Part::Coefficient,
        "clash" => Part::Clash,
        "zeros" => Part::Zeros,
        "matrix" => Part::Matrix,
        "rank" => Part::Rank,
        _ => panic!("no part: {name}"),
    }
}

/// The numbers below n in their order after a shuffle.
pub struct Shuffled {
    pub n: usize,
    pub seed: Seed,
    pub order: Arrangement,
}

/// In full, or as the SHA-256 of its 16-bit numbers.
pub enum Arrangement {
    Full(Vec<u32>),
    Digest(Vec<u8>),
}

pub fn shuffles() -> Vec<Shuffled> {
    records(SHUFFLES).iter().map(shuffled).collect()
}

fn shuffled(case: &Value) -> Shuffled {
    let order = match case.get("order").and_then(Value::list) {
        Some(order) => Arrangement::Full(order.iter().map(|item| size(item) as u32).collect()),
        None => Arrangement::Digest(bytes(case, "sha256_of_16bit")),
    };
    Shuffled { n: case.get("n").map(size).expect("a length"), seed: seed(case, "seed"), order }
}

impl Arrangement {
    pub fn is(&self, order: &[u32]) -> bool {
        match self {
            Arrangement::Full(full) => full == order,
            Arrangement::Digest(digest) => {
                let packed: Vec<u8> =
                    order.iter().flat_map(|&item| (item as u16).to_be_bytes()).collect();
                sha256(&packed)[..] == digest[..]
            }
        }
    }
}

fn records(file: &str) -> Vec<Value> {
    parse(file).ok().as_ref().and_then(Value::list).expect("a list").to_vec()
}

fn text<'a>(record: &'a Value, name: &str) -> &'a str {
    record.get(name).and_then(Value::text).unwrap_or_else(|| panic!("no text `{name}`"))
}

fn level(record: &Value) -> &'static Level {
    Level::named(text(record, "level").as_bytes()).expect("a level")
}

fn seed(record: &Value, name: &str) -> Seed {
    bytes(record, name).try_into().expect("a seed")
}

fn size(value: &Value) -> usize {
    value.number().and_then(|number| number.try_into().ok()).expect("a number")
}

fn room(work: &Value) -> Room {
    match work.list().expect("a list") {
        [bytes, places, positions] => {
            Room { bytes: size(bytes), places: size(places), positions: size(positions) }
        }
        _ => panic!("work has three sizes"),
    }
}

fn kind(name: &str) -> Kind {
    match name {
        "sha3" => Kind::Sha3,
        "sha2" => Kind::Sha2,
        _ => panic!("no hash: {name}"),
    }
}

/// Bytes written as hexadecimal digits, or `#LENxBYTE` for LEN times one byte.
fn bytes(record: &Value, name: &str) -> Vec<u8> {
    let written = text(record, name);
    match written.strip_prefix('#').and_then(|run| run.split_once('x')) {
        Some((length, byte)) => vec![digits(byte)[0]; length.parse().expect("a length")],
        None => digits(written),
    }
}

fn digits(written: &str) -> Vec<u8> {
    let pairs = (0..written.len()).step_by(2);
    pairs.map(|i| u8::from_str_radix(&written[i..i + 2], 16).expect("two digits")).collect()
}

#[cfg(test)]
mod tests {
    use super::*;
    use crate::code::Code;
    use crate::seal::{head, seal, ticket_key};
    use crate::shuffle;

    /// With the public key as it is made, not as it is written here, so that the
    /// tickets of the large levels are found in full too.
    #[test]
    fn the_twin_makes_the_pairs_and_seals_to_them() {
        let pairs = pairs();
        assert_eq!(pairs.iter().map(|pair| pair.used).collect::<Vec<_>>(), [0, 2, 7, 0, 0, 11]);
        for pair in pairs {
            let level = pair.level;
            let mut public_key = vec![0; level.public_key()];
            let mut secret_key = vec![0; level.secret_key()];
            assert_eq!(make::make(&pair.order(), &mut public_key, &mut secret_key), Ok(()));
            assert!(pair.public_key.is(&public_key), "public key, {}", level.name);
            assert!(pair.secret_key.is(&secret_key), "secret key, {}", level.name);
            let parity_check = Code::of_seed(level, &pair.code_seed).parity_check();
            let mut tried = pair.mixing_seeds.iter();
            assert_eq!(tried.position(|s| parity_check.usable(s).is_some()), Some(pair.used));
            for case in &pair.sealed {
                assert_sealed(case, &public_key);
            }
        }
    }

    #[test]
    fn the_twin_answers_every_make() {
        let calls = makes();
        assert_eq!(calls.len(), 7);
        for call in calls {
            let (mut public_key, mut secret_key) =
                (call.public_key.clone(), call.secret_key.clone());
            let answer = make::make(&call.order(), &mut public_key, &mut secret_key);
            assert_eq!(answer, call.answer, "{}", call.note);
            let unchanged = [public_key == call.public_key, secret_key == call.secret_key];
            assert_eq!(unchanged, [answer.is_err(); 2], "{}", call.note);
        }
    }

    #[test]
    fn the_twin_seals_the_sealed() {
        let mut count = 0;
        for case in sealed() {
            if let Some(public_key) = &case.public_key {
                assert_sealed(&case, public_key);
                count += 1;
            }
        }
        assert_eq!(count, 18);
    }

    fn assert_sealed(case: &Sealed, public_key: &[u8]) {
        let order = Order {
            level: case.level.name.as_bytes(),
            public_key,
            ticket_seed: &case.seed,
            hash: Hash::full(case.kind),
            room: case.level.room,
        };
        let (mut ticket, mut key) = (vec![0; case.level.ticket()], vec![0; 32]);
        assert_eq!(seal(&order, &mut ticket, &mut key), Ok(()));
        assert_eq!((&ticket, &key), (&case.ticket, &case.key), "{}", case.level.name);
    }

    #[test]
    fn the_twin_finds_head_and_key_at_every_level() {
        for case in sealed() {
            let hash = Hash::full(case.kind);
            let vector = shuffle::error_vector(case.level.n, case.level.t, &case.seed);
            let (first, body) = case.ticket.split_at(32);
            assert_eq!(head(hash, &vector).as_ref().map(|head| &head[..]), Ok(first));
            assert_eq!(ticket_key(hash, &vector, first, body).map(Vec::from), Ok(case.key));
        }
    }

    #[test]
    fn the_twin_answers_every_seal() {
        let calls = seals();
        assert_eq!(calls.len(), 5);
        for call in calls {
            for kind in Kind::BOTH {
                let (mut ticket, mut key) = (call.ticket.clone(), call.key.clone());
                let answer = seal(&call.order(kind), &mut ticket, &mut key);
                assert_eq!(answer, call.answer, "{}", call.note);
                let unchanged = (&ticket, &key) == (&call.ticket, &call.key);
                assert_eq!(unchanged, answer.is_err(), "{}", call.note);
            }
        }
    }

    #[test]
    fn the_twin_shuffles() {
        let cases = shuffles();
        assert_eq!(cases.len(), 12);
        for case in cases {
            assert!(case.order.is(&shuffle::order(case.n, &case.seed)), "length {}", case.n);
        }
    }
}

//! The product beside the twin: a make at level 256, a seal there with SHA3-512,
//! and both hashes. Run it with `cargo run --release --example bench`. It shows
//! times and judges nothing. The product's make and seal clear their two megabytes
//! of work memory within their time; the twin has none to clear.

#[path = "../src/product.rs"]
mod product;

use product::Work;
use std::hint::black_box;
use std::time::Instant;
use twin::code::Code;
use twin::hash::{Hash, Kind, CAPACITY};
use twin::level::LEVELS;
use twin::make::{self, make};
use twin::random::Random;
use twin::seal::{seal, Order};

const RUNS: usize = 301;
const MAKES: usize = 11;

fn main() {
    bench_make(0);
    bench_make(4);
    bench_seal();
    bench_hash("SHA3-512", Kind::Sha3);
    bench_hash("SHA-512", Kind::Sha2);
}

/// With a list of this many unusable seeds and then a usable one.
fn bench_make(unusable: usize) {
    let mut random = Random::new(3);
    let level = &LEVELS[3];
    let mut work = Work::zeros(level.room);
    let (mut public_key, mut secret_key) =
        (vec![0; level.public_key()], vec![0; level.secret_key()]);
    let (mut other_public, mut other_secret) = (public_key.clone(), secret_key.clone());
    let (mut by_product, mut by_twin) = (Vec::new(), Vec::new());
    for _ in 0..MAKES {
        let (code_seed, decoy_seed) = (random.seed(), random.seed());
        let parity_check = Code::of_seed(level, &code_seed).parity_check();
        let mut seed = |usable: bool| loop {
            let seed = random.seed();
            if parity_check.usable(&seed).is_some() == usable {
                return seed;
            }
        };
        let mixing_seeds: Vec<u8> = (0..=unusable).flat_map(|i| seed(i == unusable)).collect();
        let order = make::Order {
            level: level.name.as_bytes(),
            code_seed: &code_seed,
            mixing_seeds: &mixing_seeds,
            decoy_seed: &decoy_seed,
            room: level.room,
        };
        by_product.push(time(|| {
            let (number, _) = product::make(&order, &mut public_key, &mut secret_key, &mut work);
            assert_eq!(number, 0);
        }));
        by_twin.push(time(|| {
            assert_eq!(make(&order, &mut other_public, &mut other_secret), Ok(()));
        }));
        assert!(public_key == other_public && secret_key == other_secret);
    }
    let (product, twin) = (median(by_product) / 1e3, median(by_twin) / 1e3);
    println!(
        "make at 256 after {unusable} unusable seeds: product {product:.1} ms, twin {twin:.1} ms, product / twin {:.2}",
        product / twin
    );
}

fn bench_seal() {
    let mut random = Random::new(1);
    let level = &LEVELS[3];
    let public_key = random.bytes(level.public_key());
    let mut work = Work::zeros(level.room);
    let (mut ticket, mut key) = (vec![0; level.ticket()], [0; 32]);
    let (mut other_ticket, mut other_key) = (ticket.clone(), key);
    let (mut by_product, mut by_twin) = (Vec::new(), Vec::new());
    for _ in 0..RUNS {
        let seed = random.seed();
        let order = Order {
            level: level.name.as_bytes(),
            public_key: &public_key,
            ticket_seed: &seed,
            hash: Hash::full(Kind::Sha3),
            room: level.room,
        };
        by_product.push(time(|| {
            let (number, _) = product::seal(&order, &mut ticket, &mut key, &mut work);
            assert_eq!(number, 0);
        }));
        by_twin.push(time(|| {
            assert_eq!(seal(&order, &mut other_ticket, &mut other_key), Ok(()));
        }));
        assert_eq!((&ticket, key), (&other_ticket, other_key));
    }
    let (product, twin) = (median(by_product), median(by_twin));
    println!(
        "seal at 256 with SHA3-512: product {product:.1} us, twin {twin:.1} us, product / twin {:.2}",
        product / twin
    );
}

fn bench_hash(name: &str, kind: Kind) {
    let data = Random::new(2).bytes(CAPACITY);
    let hash = Hash::full(kind);
    let mut out = [0; 32];
    let (mut by_product, mut by_twin) = (Vec::new(), Vec::new());
    for _ in 0..RUNS {
        by_product.push(time(|| {
            assert_eq!(product::hash(hash, black_box(&data), &mut out), 0);
        }));
        by_twin.push(time(|| {
            assert_eq!(hash.digest(black_box(&data)), Ok(out));
        }));
    }
    let speed = |times| CAPACITY as f64 / median(times);
    let (product, twin) = (speed(by_product), speed(by_twin));
    println!(
        "{name}: product {product:.1} MB/s, twin {twin:.1} MB/s, product / twin {:.2}",
        product / twin
    );
}

/// Microseconds.
fn time(run: impl FnOnce()) -> f64 {
    let start = Instant::now();
    run();
    start.elapsed().as_secs_f64() * 1e6
}

fn median(mut times: Vec<f64>) -> f64 {
    times.sort_by(f64::total_cmp);
    times[times.len() / 2]
}

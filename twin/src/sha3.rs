//! SHA3-512 of FIPS 202.

const RATE: usize = 72;
const ROUNDS: usize = 24;
const CONSTANTS: [u64; ROUNDS] = constants();
const WALK: [(usize, u32); 24] = walk();

type State = [u64; 25];

pub fn sha3_512(message: &[u8]) -> [u8; 64] {
    let mut state = [0; 25];
    let blocks = message.chunks_exact(RATE);
    let last = padded(blocks.remainder());
    for block in blocks {
        absorb(&mut state, block);
    }
    absorb(&mut state, &last);
    let mut digest = [0; 64];
    for (bytes, lane) in digest.chunks_exact_mut(8).zip(state) {
        bytes.copy_from_slice(&lane.to_le_bytes());
    }
    digest
}

fn padded(rest: &[u8]) -> [u8; RATE] {
    let mut block = [0; RATE];
    block[..rest.len()].copy_from_slice(rest);
    block[rest.len()] = 0x06;
    block[RATE - 1] |= 0x80;
    block
}

fn absorb(state: &mut State, block: &[u8]) {
    for (lane, bytes) in state.iter_mut().zip(block.chunks_exact(8)) {
        *lane ^= u64::from_le_bytes(bytes.try_into().expect("8 bytes"));
    }
    for constant in CONSTANTS {
        theta(state);
        rho_and_pi(state);
        chi(state);
        state[0] ^= constant;
    }
}

fn theta(state: &mut State) {
    let column: [u64; 5] = std::array::from_fn(|x| (0..5).fold(0, |sum, y| sum ^ state[x + 5 * y]));
    for x in 0..5 {
        let change = column[(x + 4) % 5] ^ column[(x + 1) % 5].rotate_left(1);
        for y in 0..5 {
            state[x + 5 * y] ^= change;
        }
    }
}

/// Each lane of the walk moves, rotated, to the place of the next one.
fn rho_and_pi(state: &mut State) {
    let mut carried = state[1];
    for (target, turn) in WALK {
        let next = state[target];
        state[target] = carried.rotate_left(turn);
        carried = next;
    }
}

fn chi(state: &mut State) {
    for row in state.chunks_exact_mut(5) {
        let old: [u64; 5] = std::array::from_fn(|x| row[x]);
        for x in 0..5 {
            row[x] = old[x] ^ (!old[(x + 1) % 5] & old[(x + 2) % 5]);
        }
    }
}

/// The round constants: bit 2^j - 1 of each is the next bit of a shift register
/// of eight bits with the feedback x^8 + x^6 + x^5 + x^4 + 1.
const fn constants() -> [u64; ROUNDS] {
    let mut all = [0; ROUNDS];
    let mut register: u8 = 1;
    let mut step = 0;
    while step < 7 * ROUNDS {
        all[step / 7] |= ((register & 1) as u64) << ((1 << (step % 7)) - 1);
        let feedback = if register & 0x80 != 0 { 0x71 } else { 0 };
        register = (register << 1) ^ feedback;
        step += 1;
    }
    all
}

/// From lane (1, 0) on, (x, y) is followed by (y, 2x + 3y); the turn at step s,
/// from 1, is s(s + 1)/2. Gives for each step the lane it leads to.
const fn walk() -> [(usize, u32); 24] {
    let mut all = [(0, 0); 24];
    let (mut x, mut y) = (1, 0);
    let mut step = 0;
    while step < 24 {
        (x, y) = (y, (2 * x + 3 * y) % 5);
        all[step] = (x + 5 * y, ((step + 1) * (step + 2) / 2 % 64) as u32);
        step += 1;
    }
    all
}

#[cfg(test)]
mod tests {
    use super::sha3_512;
    use crate::hash::{hex, tests::LONG};

    #[test]
    fn vectors_of_fips_202() {
        let a_million = vec![b'a'; 1_000_000];
        let cases: [(&[u8], &str); 4] =
            [(b"", EMPTY), (b"abc", ABC), (LONG, OF_LONG), (&a_million, OF_A_MILLION)];
        for (message, digest) in cases {
            assert_eq!(hex(&sha3_512(message)), digest, "{} bytes", message.len());
        }
    }

    const EMPTY: &str = "a69f73cca23a9ac5c8b567dc185a756e97c982164fe25859e0d1dcc1475c80a6\
        15b2123af1f5f94c11e3e9402c3ac558f500199d95b6d3e301758586281dcd26";
    const ABC: &str = "b751850b1a57168a5693cd924b6b096e08f621827444f70d884f5d0240d2712e\
        10e116e9192af3c91a7ec57647e3934057340b4cf408d5a56592f8274eec53f0";
    const OF_LONG: &str = "afebb2ef542e6579c50cad06d2e578f9f8dd6881d7dc824d26360feebf18a4fa\
        73e3261122948efcfd492e74e82e2189ed0fb440d187f382270cb455f21dd185";
    const OF_A_MILLION: &str = "3c3a876da14034ab60627c077bb98f7e120a2a5370212dffb3385a18d4f38859\
        ed311d0a9d5141ce9cc5c66ee689b266a8aa18ace8282a0e0db596c90b0a7b87";
}

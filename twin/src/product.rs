//! The product, through its C interface.
//!
//! Not a module of this package's library: each integration test and the
//! benchmark includes this file and is linked with the product's static library.
//! Each slice passes as a pointer and a length.

// Whoever includes this file calls only what it needs.
#![allow(dead_code)]

use twin::hash::{Hash, Kind};
use twin::level::Room;
use twin::make;
use twin::random::Random;
use twin::seal::Order;

mod raw {
    extern "C" {
        pub fn zq_hash(
            kind: u8,
            capacity: usize,
            data: *const u8,
            data_len: usize,
            out: *mut u8,
            out_len: usize,
        ) -> u64;

        pub fn zq_hash_in_two(
            kind: u8,
            first: *const u8,
            first_len: usize,
            second: *const u8,
            second_len: usize,
            out: *mut u8,
            out_len: usize,
        ) -> u64;

        pub fn zq_shuffle(
            seed: *const u8,
            seed_len: usize,
            items: *mut u32,
            items_len: usize,
        ) -> u64;

        pub fn zq_permute(
            seed: *const u8,
            seed_len: usize,
            inverse: u8,
            vector: *const u8,
            vector_len: usize,
            out: *mut u8,
            out_len: usize,
            positions: *mut u32,
            positions_len: usize,
        ) -> u64;

        pub fn zq_error_vector(
            level: *const u8,
            level_len: usize,
            seed: *const u8,
            seed_len: usize,
            out: *mut u8,
            out_len: usize,
            positions: *mut u32,
            positions_len: usize,
        ) -> u64;

        pub fn zq_seal(
            level: *const u8,
            level_len: usize,
            public_key: *const u8,
            public_key_len: usize,
            ticket_seed: *const u8,
            ticket_seed_len: usize,
            ticket: *mut u8,
            ticket_len: usize,
            key: *mut u8,
            key_len: usize,
            kind: u8,
            capacity: usize,
            bytes: *mut u8,
            bytes_len: usize,
            places: *mut u16,
            places_len: usize,
            positions: *mut u32,
            positions_len: usize,
            report: *mut u64,
            report_len: usize,
        ) -> u64;

        pub fn zq_make(
            level: *const u8,
            level_len: usize,
            code_seed: *const u8,
            code_seed_len: usize,
            mixing_seeds: *const u8,
            mixing_seeds_len: usize,
            decoy_seed: *const u8,
            decoy_seed_len: usize,
            public_key: *mut u8,
            public_key_len: usize,
            secret_key: *mut u8,
            secret_key_len: usize,
            bytes: *mut u8,
            bytes_len: usize,
            places: *mut u16,
            places_len: usize,
            positions: *mut u32,
            positions_len: usize,
            report: *mut u64,
            report_len: usize,
        ) -> u64;
    }
}

/// Work memory to lend.
pub struct Work {
    pub bytes: Vec<u8>,
    pub places: Vec<u16>,
    pub positions: Vec<u32>,
}

impl Work {
    pub fn zeros(room: Room) -> Self {
        Work {
            bytes: vec![0; room.bytes],
            places: vec![0; room.places],
            positions: vec![0; room.positions],
        }
    }

    /// Full of what others left behind.
    pub fn leavings(room: Room, random: &mut Random) -> Self {
        Work {
            bytes: random.bytes(room.bytes),
            places: random.numbers16(room.places),
            positions: random.numbers32(room.positions),
        }
    }

    pub fn is_zero(&self) -> bool {
        self.bytes.iter().all(|&byte| byte == 0)
            && self.places.iter().all(|&place| place == 0)
            && self.positions.iter().all(|&position| position == 0)
    }
}

/// Writes the hash of the data to `out`; gives 0, 3 or 5.
pub fn hash(hash: Hash, data: &[u8], out: &mut [u8]) -> u64 {
    // SAFETY: pointers and lengths come from live slices, `out` is lent alone.
    unsafe {
        raw::zq_hash(
            hash.kind as u8,
            hash.asked,
            data.as_ptr(),
            data.len(),
            out.as_mut_ptr(),
            out.len(),
        )
    }
}

/// The hash of two pieces, taken one after the other; gives 0, 3 or 5.
pub fn hash_in_two(kind: Kind, first: &[u8], second: &[u8], out: &mut [u8]) -> u64 {
    // SAFETY: as above.
    unsafe {
        raw::zq_hash_in_two(
            kind as u8,
            first.as_ptr(),
            first.len(),
            second.as_ptr(),
            second.len(),
            out.as_mut_ptr(),
            out.len(),
        )
    }
}

/// Shuffles the items in place; gives 0 or 3.
pub fn shuffle(seed: &[u8], items: &mut [u32]) -> u64 {
    // SAFETY: as above, with `items` lent alone.
    unsafe { raw::zq_shuffle(seed.as_ptr(), seed.len(), items.as_mut_ptr(), items.len()) }
}

/// Perm, or with `inverse` PermInv, of the vector by the seed; gives 0 or 3.
pub fn permute(
    seed: &[u8],
    inverse: bool,
    vector: &[u8],
    out: &mut [u8],
    positions: &mut [u32],
) -> u64 {
    // SAFETY: as above, with `out` and `positions` lent alone.
    unsafe {
        raw::zq_permute(
            seed.as_ptr(),
            seed.len(),
            inverse.into(),
            vector.as_ptr(),
            vector.len(),
            out.as_mut_ptr(),
            out.len(),
            positions.as_mut_ptr(),
            positions.len(),
        )
    }
}

/// The error vector of a seed; gives 0, 1, 3 or 4.
pub fn error_vector(level: &[u8], seed: &[u8], out: &mut [u8], positions: &mut [u32]) -> u64 {
    // SAFETY: as above.
    unsafe {
        raw::zq_error_vector(
            level.as_ptr(),
            level.len(),
            seed.as_ptr(),
            seed.len(),
            out.as_mut_ptr(),
            out.len(),
            positions.as_mut_ptr(),
            positions.len(),
        )
    }
}

/// Seals a ticket; gives the number of the refusal or 0, and the report. The work
/// memory has the sizes that the order names.
pub fn seal(order: &Order, ticket: &mut [u8], key: &mut [u8], work: &mut Work) -> (u64, [u64; 4]) {
    let mut report = [u64::MAX; 4];
    // SAFETY: as above, with outputs, work memory and report lent alone.
    let number = unsafe {
        raw::zq_seal(
            order.level.as_ptr(),
            order.level.len(),
            order.public_key.as_ptr(),
            order.public_key.len(),
            order.ticket_seed.as_ptr(),
            order.ticket_seed.len(),
            ticket.as_mut_ptr(),
            ticket.len(),
            key.as_mut_ptr(),
            key.len(),
            order.hash.kind as u8,
            order.hash.asked,
            work.bytes.as_mut_ptr(),
            work.bytes.len(),
            work.places.as_mut_ptr(),
            work.places.len(),
            work.positions.as_mut_ptr(),
            work.positions.len(),
            report.as_mut_ptr(),
            report.len(),
        )
    };
    (number, report)
}

/// Makes a pair of keys; gives the number of the refusal or 0, and the report. The
/// work memory has the sizes that the order names.
pub fn make(
    order: &make::Order,
    public_key: &mut [u8],
    secret_key: &mut [u8],
    work: &mut Work,
) -> (u64, [u64; 4]) {
    let mut report = [u64::MAX; 4];
    // SAFETY: as above.
    let number = unsafe {
        raw::zq_make(
            order.level.as_ptr(),
            order.level.len(),
            order.code_seed.as_ptr(),
            order.code_seed.len(),
            order.mixing_seeds.as_ptr(),
            order.mixing_seeds.len(),
            order.decoy_seed.as_ptr(),
            order.decoy_seed.len(),
            public_key.as_mut_ptr(),
            public_key.len(),
            secret_key.as_mut_ptr(),
            secret_key.len(),
            work.bytes.as_mut_ptr(),
            work.bytes.len(),
            work.places.as_mut_ptr(),
            work.places.len(),
            work.positions.as_mut_ptr(),
            work.positions.len(),
            report.as_mut_ptr(),
            report.len(),
        )
    };
    (number, report)
}

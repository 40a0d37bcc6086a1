//! Names and sizes, right and wrong ones, for the differential tests.

// Whoever includes this file uses only what it needs.
#![allow(dead_code)]

use twin::level::Room;
use twin::random::Random;

/// Names that are close to a level's, and none of them.
pub const NO_LEVELS: [&[u8]; 16] = [
    b"", b"0", b"160", b"384", b"12", b"1280", b"0128", b"128 ", b" 192", b"256\n", b"Sample",
    b"sampl", b"samples", b"sample\0", b"\xff", b"sample\xc3\x28",
];

pub fn wrong_length(right: usize, random: &mut Random) -> usize {
    [0, right - 1, right + 1, 2 * right][random.below(4)]
}

pub fn too_few(least: usize, random: &mut Random) -> usize {
    [0, least / 2, least - 1][random.below(3)]
}

/// Nothing as often as something.
pub fn surplus(random: &mut Random) -> usize {
    [0, 1 + random.below(100)][random.below(2)]
}

pub fn with_surplus(room: Room, random: &mut Random) -> Room {
    Room {
        bytes: room.bytes + surplus(random),
        places: room.places + surplus(random),
        positions: room.positions + surplus(random),
    }
}

//! The tests that several calls make before their work.

use crate::fault::{Fault, Layer};
use crate::level::{Level, Room};

/// The level of this name.
pub fn level(name: &[u8]) -> Result<&'static Level, Fault> {
    Level::named(name).ok_or(Fault::new(1, Layer::Call, 0))
}

/// For each buffer of a call, in their order, whether its length is right.
pub fn lengths(right: &[bool]) -> Result<(), Fault> {
    all(right, 3)
}

pub fn room(level: &Level, room: Room) -> Result<(), Fault> {
    let least = level.room;
    let enough =
        [room.bytes >= least.bytes, room.places >= least.places, room.positions >= least.positions];
    all(&enough, 4)
}

fn all(fine: &[bool], number: u8) -> Result<(), Fault> {
    match fine.iter().position(|fine| !fine) {
        Some(place) => Err(Fault::new(number, Layer::Call, place)),
        None => Ok(()),
    }
}

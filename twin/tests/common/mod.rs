//! What the integration tests share.

pub mod data;
#[path = "../../src/product.rs"]
pub mod product;

use product::Work;
use twin::fault::{report, Fault};
use twin::random::Random;
use twin::seal::{seal, Order};

/// Seals by the twin and by the product, the latter with work memory full of
/// leavings, and finds that both answer alike and leave the same outputs, that a
/// refusal leaves them as they were, and that the work memory is zero.
pub fn seal_by_both(
    order: &Order,
    ticket: &mut [u8],
    key: &mut [u8],
    random: &mut Random,
) -> Result<(), Fault> {
    let before = (ticket.to_vec(), key.to_vec());
    let (mut ticket_by_product, mut key_by_product) = before.clone();
    let mut work = Work::leavings(order.room, random);
    let (number, told) =
        product::seal(order, &mut ticket_by_product, &mut key_by_product, &mut work);
    let answer = seal(order, ticket, key);
    assert!(work.is_zero(), "work memory is zero after {answer:?}");
    assert_eq!(told, report(answer), "the report of {answer:?}");
    assert_eq!(number, told[0], "the number of {answer:?}");
    assert_eq!((&*ticket, &*key), (&ticket_by_product[..], &key_by_product[..]), "{answer:?}");
    if answer.is_err() {
        assert_eq!((&*ticket, &*key), (&before.0[..], &before.1[..]), "{answer:?}");
    }
    answer
}

//! A random order.

use judging::random::Random;

pub fn shuffle<Item>(random: &mut Random, items: &mut [Item]) {
    for last in (1..items.len()).rev() {
        let other = random.below(last + 1);
        items.swap(last, other);
    }
}

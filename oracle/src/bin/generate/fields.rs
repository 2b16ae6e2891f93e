//! Fields that several kinds of sheet draw.

use judging::random::Random;

pub fn target(random: &mut Random) -> char {
    random.pick(&['f', 'q'])
}

pub fn level(random: &mut Random) -> char {
    random.weighted(&[(4, 's'), (4, 'd'), (1, 'r')])
}

/// A context whose chunk is at most the last one given.
pub fn context(random: &mut Random, last_chunk: usize) -> String {
    match random.below(7) {
        0 | 1 => "h".to_string(),
        2 | 3 => format!("m{}", random.between(0, last_chunk)),
        _ => format!("l{}", random.between(0, last_chunk)),
    }
}

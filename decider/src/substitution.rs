//! Two choices of numbers are enough: the freest one under the machine's demands, and the
//! freest one under what is wanted. Whatever else meets the demands is one of these with
//! some numbers made equal.

use crate::machine::run;
use crate::names::names_that_occur;
use crate::outcome::{Numbers, Outcome, agree};
use crate::sheet::Sheet;
use crate::wanted::wanted;

pub fn is_accepted(sheet: &Sheet) -> bool {
    [run, wanted].into_iter().all(|outcome| {
        let numbers = freest(sheet, outcome);
        agree(&run(sheet, &numbers), &wanted(sheet, &numbers))
    })
}

/// All numbers different at first; then, as long as a demand fails, one number is put in the
/// place of the other.
fn freest(sheet: &Sheet, outcome: fn(&Sheet, &Numbers) -> Outcome) -> Numbers {
    let names = names_that_occur(sheet);
    let different: Vec<usize> = (0..names.len()).collect();
    let mut numbers = Numbers::new(&names, &different);
    while let Some((one, other)) = failing_demand(&outcome(sheet, &numbers)) {
        numbers.substitute(other, one);
    }
    numbers
}

fn failing_demand(outcome: &Outcome) -> Option<(usize, usize)> {
    let mut demands = outcome.demands.iter().copied();
    demands.find(|(one, other)| one != other)
}

//! The plainest way: every choice of numbers is tried.
//!
//! Only which numbers are equal can make a difference. So the choices are the ways to divide
//! the names into groups of equal ones: the first name has number 0, and each next one a
//! number that has been given before, or the least that has not.

use crate::machine::run;
use crate::names::{Name, names_that_occur};
use crate::outcome::{Number, Numbers, agree};
use crate::sheet::Sheet;
use crate::wanted::wanted;

/// So many names, and no more, are tried out: 877 choices.
pub const FEW_NAMES: usize = 7;

/// Whether the sheet is accepted, if it has few names.
pub fn is_accepted(sheet: &Sheet) -> Option<bool> {
    let names = names_that_occur(sheet);
    let few = names.len() <= FEW_NAMES;
    few.then(|| holds_for_all(sheet, &names, &mut Vec::new()))
}

/// Whether machine and wanted agree however the numbers not yet chosen are chosen.
fn holds_for_all(sheet: &Sheet, names: &[Name], chosen: &mut Vec<Number>) -> bool {
    if chosen.len() == names.len() {
        let numbers = Numbers::new(names, chosen);
        return agree(&run(sheet, &numbers), &wanted(sheet, &numbers));
    }
    let not_given_before = chosen.iter().max().map_or(0, |largest| largest + 1);
    (0..=not_given_before).all(|number| {
        chosen.push(number);
        let holds = holds_for_all(sheet, names, chosen);
        chosen.pop();
        holds
    })
}

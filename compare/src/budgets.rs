//! The search for budgets: by both, and the sheet with the row that is found,
//! which the proved library has to admit.

use peer::generate::BudgetsCase;
use peer::stats::{no_row_names, row_names};

use crate::tally::{Outcome, Tally};
use crate::{proved, second};

/// A search for budgets of the second program, good or broken.
pub type Find = fn(&[u32], &mut [u32]) -> peer::Answer;

/// A row of budgets takes so many words.
const ROW: usize = 16;

pub fn found_by_proved(case: &BudgetsCase) -> Outcome {
    proved(&case.room, |room| {
        wistorvan::raw::find_budgets(&case.sheet, room)
    })
}

pub fn found_by_second(find: Find, case: &BudgetsCase) -> Outcome {
    second(&case.room, |room| find(&case.sheet, room))
}

/// Both searches on the case.
pub fn compare_budgets(tally: &mut Tally, name: &str, case: &BudgetsCase) {
    tally.new_budgets();
    let mine = found_by_proved(case);
    let other = found_by_second(peer::find_budgets, case);
    tally.compare("find budgets", name, case, &mine, &other);
    match other.answer.0 {
        0 => {
            let names = row_names(&case.sheet, &other.left[..ROW]);
            tally.named("find budgets", 0, names);
        }
        11 => tally.named("find budgets", 11, no_row_names(&case.sheet)),
        _ => {}
    }
    if (mine.answer.0, other.answer.0) == (0, 0) {
        compare_row(tally, name, case, &mine);
    }
}

/// With the row that the proved library has found, the sheet is admitted by it
/// with the cycle that was answered, and with the waits of the second program.
fn compare_row(tally: &mut Tally, name: &str, case: &BudgetsCase, found: &Outcome) {
    let mut sheet = case.sheet.clone();
    let nodes = sheet[0] as usize;
    for (node, &budget) in found.left.iter().take(nodes).enumerate() {
        sheet[3 + 3 * node + 2] = budget;
    }
    let streams = (sheet.len() - 3 - 3 * nodes) / 3;
    let room = [0; 256];
    let admitted = proved(&room, |room| wistorvan::raw::admit(&sheet, room));
    let waits = second(&room, |room| peer::admit(&sheet, room)).left;
    let expected = Outcome {
        answer: (0, streams as u32, found.answer.2),
        left: waits,
    };
    tally.compare("row admitted", name, case, &admitted, &expected);
}

//! The writer: on tables of any kind, and on the tables of valid sheets. What
//! it writes is read back by the second program.

use peer::generate::{Case, TablesCase};
use peer::stats::{kinds_of_jitters, tables_fault};
use peer::{read_tables, Tables};

use crate::tally::{Outcome, Tally};
use crate::{proved, second};

/// A writer of the second program, good or broken.
pub type Writer = fn(&Tables, &mut [u32]) -> peer::Answer;

pub fn written_by_proved(tables: &Tables, room: &[u32]) -> Outcome {
    let lent = wistorvan::Tables {
        message_ticks: tables.message_ticks,
        slot_ticks: tables.slot_ticks,
        counts: &tables.counts,
        budgets: &tables.budgets,
        periods: &tables.periods,
        deadlines: &tables.deadlines,
        jitters: &tables.jitters,
    };
    proved(room, |room| wistorvan::raw::write_sheet(&lent, room))
}

pub fn written_by_second(writer: Writer, tables: &Tables, room: &[u32]) -> Outcome {
    second(room, |room| writer(tables, room))
}

/// Both writers on the tables.
pub fn compare_tables(tally: &mut Tally, name: &str, case: &TablesCase) {
    tally.new_tables();
    let TablesCase { tables, room } = case;
    let mine = written_by_proved(tables, room);
    let other = written_by_second(peer::write_sheet, tables, room);
    tally.compare("write", name, case, &mine, &other);
    match other.answer {
        (0, ..) => tally.named("write", 0, kinds_of_jitters(tables)),
        (5, node, stream) => tally.named("write", 5, [tables_fault(tables, node, stream)]),
        _ => {}
    }
    if let (0, words, _) = mine.answer {
        let sheet = mine.left.get(..words as usize).unwrap_or_default();
        compare_read_back(tally, name, case, sheet);
    }
}

/// What the proved library has written is a valid sheet of the same tables.
fn compare_read_back(tally: &mut Tally, name: &str, case: &TablesCase, sheet: &[u32]) {
    let tables = read_tables(sheet);
    let read = Outcome {
        answer: proved(&[], |_| wistorvan::raw::check_sheet(sheet)).answer,
        left: tables.as_ref(),
    };
    let expected = Outcome {
        answer: (0, 0, 0),
        left: Ok(&case.tables),
    };
    tally.compare("read back", name, case, &read, &expected);
}

/// A valid sheet, whoever made it, read and written again has the same words.
pub fn compare_written_again(tally: &mut Tally, name: &str, case: &Case) {
    let Ok(tables) = read_tables(&case.sheet) else {
        return;
    };
    // No sheet has such a word: one left in place of another shows.
    let past = [u32::MAX; 2];
    let room = vec![u32::MAX; case.sheet.len() + past.len()];
    let again = written_by_proved(&tables, &room);
    let expected = Outcome {
        answer: written_by_second(peer::write_sheet, &tables, &room).answer,
        left: [&case.sheet, &past[..]].concat(),
    };
    tally.compare("written again", name, case, &again, &expected);
}

//! The step: one turn from a made-up record and room, and the replay run as
//! single steps.

use peer::generate::Case;
use peer::Record;

use crate::tally::{Outcome, Tally};
use crate::{far, proved, second};

/// A step of the second program, good or broken.
pub type Step = fn(&[u32], &[u32], &mut Record, &mut [u32]) -> peer::Answer;

/// Longer replays are not run as single steps, each of which checks its whole
/// input again.
const STEPPED_TURNS: u32 = 200;

/// What is left is the room, and the record after it.
pub fn stepped_by_proved(case: &Case) -> Outcome {
    let Record { tick, node, turns } = case.record;
    let mut bus = wistorvan::Bus { tick, node, turns };
    let mut outcome = proved(&case.step_room, |room| {
        wistorvan::raw::step(&case.sheet, &case.log, &mut bus, room)
    });
    outcome.left.extend([bus.tick, bus.node, bus.turns]);
    outcome
}

/// The same of a step of the second program.
pub fn stepped_by_second(step: Step, case: &Case) -> Outcome {
    let mut record = case.record;
    let mut outcome = second(&case.step_room, |room| {
        step(&case.sheet, &case.log, &mut record, room)
    });
    let Record { tick, node, turns } = record;
    outcome.left.extend([tick, node, turns]);
    outcome
}

/// Both steps on the case's record and room.
pub fn compare_step(tally: &mut Tally, name: &str, case: &Case) {
    let mine = stepped_by_proved(case);
    let other = stepped_by_second(peer::step, case);
    let words = other.left.iter().zip(&case.step_room);
    let begins: Vec<u32> = words
        .filter_map(|(new, old)| (new != old).then_some(*new))
        .collect();
    tally.reached("step", &[far::begin(&begins)]);
    tally.compare("step", name, case, &mine, &other);
}

/// The replay run as single steps from the start gives the same.
pub fn compare_steps(tally: &mut Tally, name: &str, case: &Case, whole: &Outcome) {
    if whole.answer.0 != 0 || whole.answer.1 > STEPPED_TURNS {
        return;
    }
    let stepped = stepped(case, whole.answer.1);
    tally.compare("replay as steps", name, case, &stepped, whole);
}

/// Ends at the horizon, at a step that is refused, or after one turn more than
/// there should be: a step that refuses or stands still must not go on forever.
fn stepped(case: &Case, turns: u32) -> Outcome {
    let mut bus = wistorvan::Bus::START;
    let mut left = case.room.clone();
    left[..case.log.len() / 2].fill(wistorvan::NOT_BEGUN);
    for _ in 0..=turns {
        if bus.tick >= case.horizon {
            break;
        }
        let a = wistorvan::raw::step(&case.sheet, &case.log, &mut bus, &mut left);
        if a.number != 0 {
            let answer = (a.number, a.second, a.third);
            return Outcome { answer, left };
        }
    }
    let answer = (0, bus.turns, bus.tick);
    Outcome { answer, left }
}

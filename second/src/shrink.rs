//! Shortens a script that shows something: calls are left out, the stream and loops of snapshots
//! closing up behind them, then parts of messages and of recordings, and lots are made smaller.

use crate::script::Call;
use crate::shorten::{
    lower_quantity, shorten_changes, shorten_message, shorten_walk, without_number, without_turn,
};

/// What a shortened list must still show.
pub type Shows<'a, T> = &'a mut dyn FnMut(&[T]) -> bool;

/// The shortest script found that still shows it: no single call, entry, field of a sound frame or
/// byte of a recording can be left out. Gives the script back as it was if it doesn't show it.
pub fn shrink(calls: &[Call], shows: Shows<Call>) -> Vec<Call> {
    let mut kept = shrink_list(calls, shows);
    leave_out_numbers(&mut kept, shows);
    for place in 0..kept.len() {
        shorten_message(&mut kept, place, shows);
        shorten_changes(&mut kept, place, shows);
        lower_quantity(&mut kept, place, shows);
        shorten_walk(&mut kept, place, shows);
    }
    leave_out_numbers(&mut kept, shows);
    shrink_list(&kept, shows)
}

/// Delta debugging: leaves out ever smaller runs of items while `shows` still holds.
pub fn shrink_list<T: Clone>(items: &[T], shows: Shows<T>) -> Vec<T> {
    let mut kept = items.to_vec();
    if !shows(&kept) {
        return kept;
    }
    let mut run = kept.len().div_ceil(2);
    while run >= 1 {
        let before = kept.len();
        leave_out_runs(&mut kept, run, shows);
        if run == 1 && kept.len() == before {
            break;
        }
        run = run.div_ceil(2).min(kept.len().div_ceil(2));
    }
    kept
}

/// Tries to leave out each run of `run` items, from the last to the first.
fn leave_out_runs<T: Clone>(kept: &mut Vec<T>, run: usize, shows: Shows<T>) {
    let mut end = kept.len();
    while end > 0 {
        let start = end.saturating_sub(run);
        let mut shorter = kept[..start].to_vec();
        shorter.extend_from_slice(&kept[end..]);
        if shows(&shorter) {
            *kept = shorter;
        }
        end = start;
    }
}

/// Tries to leave out each counted message with the later numbers lowered, so that no gap opens,
/// and each W with its loop made shorter.
fn leave_out_numbers(kept: &mut Vec<Call>, shows: Shows<Call>) {
    for place in (0..kept.len()).rev() {
        let shorter = without_number(kept, place).or_else(|| without_turn(kept, place));
        if let Some(shorter) = shorter.filter(|shorter| shows(shorter)) {
            *kept = shorter;
        }
    }
}

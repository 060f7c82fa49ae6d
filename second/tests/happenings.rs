//! The scripts of the quick pass lead loops of snapshots and J for all through all that is listed.

use selkavorn_second::gen::script;
use selkavorn_second::happenings::Happenings;

#[test]
fn every_happening_is_reached() {
    let mut happenings = Happenings::default();
    for seed in 1..=120 {
        happenings.add(&script(seed, 1_000));
        if happenings.missed().is_empty() {
            break;
        }
    }
    assert!(happenings.missed().is_empty(), "{:#?}", happenings.missed());
}

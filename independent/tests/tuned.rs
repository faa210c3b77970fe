//! The tuned check of refusal 7 beside the plain one.

use haskumye_independent::engine::Run;
use haskumye_independent::relay::Relay;
use haskumye_independent::rules::{AsWritten, Rules, Tuned};
use haskumye_independent::traffic::Traffic;

#[test]
fn the_tuned_check_agrees_on_traffic() {
    let mut run = Run::new(Relay::as_written());
    for call in Traffic::new(11).take(20_000) {
        run.make(&call);
        assert_eq!(AsWritten.tables_allowed(&run.tables), Tuned.tables_allowed(&run.tables));
    }
}

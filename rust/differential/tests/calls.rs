//! Every call against the independent program, from fixed seeds; and the
//! same, with the lent buffers beside pages that no access is allowed to.

use differential::case::Call;
use differential::memory::{Heap, Slot, SLOTS};
use differential::run::run;

/// Cases of each call. Without optimisation fewer are run.
const CASES: u64 = if cfg!(debug_assertions) {
    5_000
} else {
    50_000
};

/// Runs cases and looks that every refusal and answer came out.
fn agrees<S: Slot>(call: Call, cases: u64, seed: u64, slots: &mut [S; SLOTS]) {
    let tally = run(call, cases, seed, slots).unwrap_or_else(|difference| panic!("{difference}"));
    println!("{tally}");
    let missing = tally.missing();
    assert!(missing.is_empty(), "{}: never {missing:?}", call.name());
}

/// One test for each call.
macro_rules! calls {
    ($($test:ident $call:ident)*) => {$(
        #[test]
        fn $test() {
            agrees(Call::$call, CASES, 1_000_000, &mut Heap::slots());
        }
    )*};
}

calls! {
    coarsest Coarsest
    compare Compare
    normalise Normalise
    end_start EndStart
    test_simulation TestSimulation
    check_plan CheckPlan
    write_plan WritePlan
    hand_play HandPlay
    join Join
    to_named ToNamed
    to_plain ToPlain
    ready_start ReadyStart
    compare_ready CompareReady
}

#[cfg(target_os = "linux")]
mod guarded {
    use super::agrees;
    use differential::case::Call;
    use differential::memory::{Guarded, Side};

    /// Enough for every refusal to come out.
    const CASES: u64 = 5_000;

    #[test]
    fn nothing_before_a_buffer_is_touched() {
        for call in Call::ALL {
            agrees(call, CASES, 2_000_000, &mut Guarded::slots(Side::Begin));
        }
    }

    #[test]
    fn nothing_after_a_buffer_is_touched() {
        for call in Call::ALL {
            agrees(call, CASES, 3_000_000, &mut Guarded::slots(Side::End));
        }
    }
}

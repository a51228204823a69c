//! The fuzz target: each input is one call (`fuzzed.rs` says which). It is made twice, against a forbidden page behind what is
//! lent and against one before it; held against what is owed; and so is each call that its outcome says something about. A
//! difference is printed, and aborts. FAULT=N plants a fault.

use oracle::compare::{Comparison, Difference};
use oracle::operation::{Call, Outcome};
use oracle::operations::OPERATIONS;
use oracle::tally::Tally;
use oracle::{faults, fuzzed};
use std::sync::Mutex;

/// The library is not instrumented. So an answer, its reason, the kind of its width, how many calls are open, and how far a run
/// came, count for libFuzzer as something reached.
#[link_section = "__libfuzzer_extra_counters"]
#[used]
static mut REACHED: [u8; 4096] = [0; 4096];

static STATE: Mutex<Option<(Comparison, Tally)>> = Mutex::new(None);

extern "C" {
    fn atexit(last: extern "C" fn()) -> i32;
}

#[no_mangle]
pub extern "C" fn LLVMFuzzerInitialize(_: *mut i32, _: *mut *mut *mut i8) -> i32 {
    if let Some(number) = std::env::var("FAULT").ok().and_then(|number| number.parse().ok()) {
        eprintln!("fuzz: planted, {}", faults::plant(number).expect("there is such a fault"));
    }
    // SAFETY: the function only prints.
    unsafe { atexit(print_counts) }
}

extern "C" fn print_counts() {
    if let Some((_, tally)) = STATE.lock().ok().as_deref().and_then(Option::as_ref) {
        tally.report("fuzz");
    }
}

/// # Safety
/// `data` is valid for `size` bytes.
#[no_mangle]
pub unsafe extern "C" fn LLVMFuzzerTestOneInput(data: *const u8, size: usize) -> i32 {
    // SAFETY: as above; libFuzzer's pointer may be null where there are no bytes.
    let bytes = if size == 0 { &[][..] } else { unsafe { std::slice::from_raw_parts(data, size) } };
    let call = fuzzed::call(bytes);
    let mut state = STATE.lock().expect("one thread fuzzes");
    let (comparison, tally) = state.get_or_insert_default();
    match comparison.both_sides(&call).and_then(|()| comparison.look(&call, 1, tally)) {
        Ok(outcome) => reached(&call, &outcome),
        Err(Difference { call, why }) => {
            eprint!("fuzz: FOUND\n{}{why}", call.described());
            std::process::abort();
        }
    }
    0
}

fn reached(call: &Call, outcome: &Outcome) {
    let place = OPERATIONS.iter().position(|one| one.number == call.operation.number).unwrap_or(0);
    let bits = outcome.values[1].map_or(0, |tokens| 64 - tokens.leading_zeros() as usize);
    let (answer, reason) = call.operation.kind(outcome);
    let far = reason.map_or(bits, |reason| reason as usize);
    let width = call.operation.width.and_then(|(kind, _)| outcome.values[kind]);
    let width = width.map_or(0, |kind| 1 + kind as usize);
    let calls = call.operation.calls.and_then(|place| outcome.values[place]).unwrap_or(0);
    let open = 3900 + calls.clamp(0, 64) as usize;
    for at in [place * 64 + answer as usize, 1024 + answer as usize * 64 + far, open, 4000 + width] {
        // SAFETY: one thread writes single bytes, and no reference is kept.
        unsafe { (&raw mut REACHED).cast::<u8>().add(at % 4096).write(1) };
    }
}

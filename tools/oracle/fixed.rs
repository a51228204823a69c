//! All 2^32 Fixed values as call indexes: the proved function against the unchanged Rust and the rule in the plain profile,
//! and against "65536 divides n" in the strict one.

use crate::library::ighzamrel_call_index;
use crate::rules::number::{call_index, Operand};
use crate::source::number as source;
use crate::threads::Work;

const FIXED: u32 = 1;
const PARTS: u64 = 4096;
const PART: u64 = (1 << 32) / PARTS;

/// Compares them all, and prints how many were whole in each profile.
pub fn run() -> Result<(), String> {
    let work = Work { name: "Fixed values", parts: PARTS, until: None };
    let threads = work.run(|part, whole: &mut [u64; 2], done| {
        compare(part * PART, whole)?;
        done.add(PART);
        Ok(())
    })?;
    println!("{} Fixed values compared, no difference", PARTS * PART);
    for (i, profile) in ["plain", "strict"].iter().enumerate() {
        let whole: u64 = threads.iter().map(|whole| whole[i]).sum();
        println!("{profile}: {whole} whole, {} not", PARTS * PART - whole);
    }
    Ok(())
}

fn compare(first: u64, whole: &mut [u64; 2]) -> Result<(), String> {
    for bits in first..first + PART {
        let n = bits as u32 as i32;
        let operand = Operand::Fixed(n);
        let source = source::call_index(operand);
        let rule = call_index(operand, false).ok();
        let divided = (n % 65536 == 0).then_some(n / 65536);
        let ours = [proved(n, 0)?, proved(n, 1)?];
        if ours != [source, divided] || rule != source {
            return Err(format!(
                "{n}: ours {ours:?}, the Rust {source:?}, the rule {rule:?}, divided {divided:?}"
            ));
        }
        (0..2).for_each(|i| whole[i] += u64::from(ours[i].is_some()));
    }
    Ok(())
}

/// No Fixed counts as `i32::MIN`, so that this value shows whether the caller's place was left alone.
fn proved(n: i32, profile: u32) -> Result<Option<i32>, String> {
    let mut index = i32::MIN;
    // SAFETY: the function's one pointer is to a number that outlives the call.
    let answer = unsafe { ighzamrel_call_index(FIXED, n, profile, &mut index) };
    match (answer, index) {
        (0, index) => Ok(Some(index)),
        (7, i32::MIN) => Ok(None),
        _ => Err(format!("{n}, profile {profile}: answer {answer}, and the place holds {index}")),
    }
}

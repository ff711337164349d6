//! The instructions of one call: bench/count-instructions has callgrind write down those of each run of `bench_counted`.

use crate::callgrind;
use crate::calls::Calls;

/// How many calls are counted, once and once more: their difference leaves out what is not a call's.
const COUNTED: [u64; 2] = [100, 200];

/// At the ends of `bench_counted` callgrind writes down the instructions: on x86-64 it is told the name, and on Arm, where it
/// loses sight of a function's end, it is asked.
pub fn count(calls: &mut Calls) {
    calls(COUNTED[0]);
    for number in COUNTED {
        bench_counted(calls, number);
    }
}

#[unsafe(no_mangle)]
#[inline(never)]
fn bench_counted(calls: &mut Calls, number: u64) {
    callgrind::zero();
    calls(number);
    callgrind::dump();
}

/// What one call took, by the lines with both numbers of each side.
pub fn per_call(instructions: &str) -> Vec<u64> {
    let totals: Vec<u64> = instructions
        .lines()
        .map(|line| line.parse().expect(line))
        .collect();
    let calls = COUNTED[1] - COUNTED[0];
    let of_one = |both: &[u64]| (both[1] - both[0] + calls / 2) / calls;
    totals.chunks(2).map(of_one).collect()
}

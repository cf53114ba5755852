//! Times of calls that do the same, taken turn by turn, so that all see the same machine.

use std::hint::black_box;
use std::time::Instant;

/// All is measured so many times over, so that what disturbs the machine for a while spoils one time
/// only.
pub const ROUNDS: usize = 3;
const TURNS: usize = 256;
/// A turn repeats a call for about so many nanoseconds.
const TURN: f64 = 200_000.0;
/// Places on the stack, of one line of the cache each, that make up a page.
const PLACES: usize = 64;

/// Nanoseconds of one call by each implementation, `call` naming which: the least of all turns, which
/// is the one least disturbed. Where a call's tables lie costs it up to a tenth and differs from process
/// to process, so that each turn is taken at another place on the stack. The first implementation has
/// the call; of others `has` says whether they do, and one that does not takes no turn.
pub fn least<const N: usize>(has: [bool; N], mut call: impl FnMut(usize) -> i64) -> [f64; N] {
    let those: Vec<usize> = (0..N).filter(|&index| has[index]).collect();
    let numbers: Vec<i64> = those.iter().map(|&index| call(index)).collect();
    let same = numbers.iter().all(|&number| number == numbers[0]);
    assert!(same, "the calls differ: {numbers:?}");
    let repeats = (TURN / turn(&mut call, 0, 20)).ceil() as usize;
    let mut times = [f64::INFINITY; N];
    for (count, place) in (0..PLACES).cycle().take(TURNS + 1).enumerate() {
        for &index in &those {
            let taken = deeper(place, &mut || turn(&mut call, index, repeats));
            // What was timed for the number of repeats has taught the processor the branches of the
            // first implementation, so that its first turn says nothing.
            if count > 0 {
                times[index] = times[index].min(taken);
            }
        }
    }
    times
}

/// Lowers times to those of one round.
pub fn lower<const N: usize>(times: &mut [f64; N], taken: [f64; N]) {
    *times = std::array::from_fn(|index| times[index].min(taken[index]));
}

fn turn(call: &mut impl FnMut(usize) -> i64, index: usize, repeats: usize) -> f64 {
    let begin = Instant::now();
    for _ in 0..repeats {
        black_box(call(index));
    }
    begin.elapsed().as_nanos() as f64 / repeats as f64
}

/// Takes a turn so many places further down the stack.
#[inline(never)]
fn deeper(places: usize, turn: &mut dyn FnMut() -> f64) -> f64 {
    let line = black_box([0u8; 64]);
    let time = match places {
        0 => turn(),
        _ => deeper(places - 1, turn),
    };
    black_box(&line);
    time
}

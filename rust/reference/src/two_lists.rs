//! Two claimants on a chart (02, Note 4): two lists about one region, and the program that hands them in.
//! "Each list gets the verdict or refusal that Judge gives it alone"; the call itself is never refused.

use crate::calls::judge;
use crate::printing;

/// What the call hands back.
#[derive(Clone, Copy, Debug, PartialEq, Eq)]
pub struct Verdicts<'a> {
    /// By Judge's numbers: 0 for a pass, the index plus 1 for a fail, a refusal's number negated.
    pub first: i64,
    pub second: i64,
    /// "The part from the first false pair to the end of its list."
    pub part: &'a [u8],
}

/// Of the lists that fail "the one with the lower index, the first list on a tie", which is the one that
/// `min_by_key` takes; "where neither does, the empty part at the first list's start". What is refused
/// "counts as not failing".
pub fn judge_two<'a>(chart: &[u8], region: u64, first: &'a [u8], second: &'a [u8]) -> Verdicts<'a> {
    let judged = [first, second].map(|list| (list, judge(chart, region, list)));
    let failing = judged.iter().filter(|(_, number)| *number > 0);
    let earlier = failing.min_by_key(|(_, number)| *number);
    let part = earlier.map(|(list, number)| {
        let index = *number as usize - 1;
        &list[2 * index..]
    });
    Verdicts {
        first: judged[0].1,
        second: judged[1].1,
        part: part.unwrap_or(&first[..0]),
    }
}

/// The longest list that the program's two bytes of length can announce.
pub const MOST_LIST: usize = 65_535;

/// The longest input of the program: a region, two such lists behind their lengths and the longest chart.
pub const MOST_INPUT: usize = 1 + 2 * (2 + MOST_LIST) + printing::MOST_BYTES;

/// What the program prints: the two numbers and the bytes of the part. Its input is the region in one byte,
/// each list behind its length in two, and the chart to the end.
pub fn text(input: &[u8]) -> String {
    if input.len() > MOST_INPUT {
        return "input too long\n".into();
    }
    let Some(verdicts) = judge_input(input) else {
        return "input too short\n".into();
    };
    let Verdicts {
        first,
        second,
        part,
    } = verdicts;
    let bytes: String = part.iter().map(|byte| format!(" {byte}")).collect();
    format!("first {first}\nsecond {second}\npart{bytes}\n")
}

/// None where the input ends before the second list does.
fn judge_input(input: &[u8]) -> Option<Verdicts<'_>> {
    let (&region, rest) = input.split_first()?;
    let (first, rest) = list(rest)?;
    let (second, chart) = list(rest)?;
    Some(judge_two(chart, region.into(), first, second))
}

/// A list behind its length, and what follows it.
fn list(input: &[u8]) -> Option<(&[u8], &[u8])> {
    let (length, rest) = input.split_first_chunk()?;
    rest.split_at_checked(u16::from_le_bytes(*length).into())
}

/// The program's input for two lists, neither longer than `MOST_LIST`.
pub fn input(region: u8, lists: [&[u8]; 2], chart: &[u8]) -> Vec<u8> {
    let mut input = vec![region];
    for list in lists {
        let length = u16::try_from(list.len()).expect("a length of two bytes");
        input.extend(length.to_le_bytes());
        input.extend(list);
    }
    input.extend(chart);
    input
}

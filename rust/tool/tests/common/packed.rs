//! The packed texts of a page read back, by themselves and not by the code that packs.

use super::json::Value;

const DIGITS: &str = "0123456789ABCDEFGHIJKLMNOPQRSTUVWXYZabcdefghijklmnopqrstuvwxyz-_";
const MARKS: &str = "!#$%()*+";

/// The number of these digits.
fn number(digits: &[u8]) -> usize {
    let digit = |x: &u8| DIGITS.find(char::from(*x)).expect("a digit");
    digits.iter().fold(0, |sum, x| sum * 64 + digit(x))
}

pub fn unpacked(text: &str) -> Vec<u8> {
    let mut out: Vec<u8> = Vec::new();
    let mut rest = text.as_bytes();
    while let [letter, behind @ ..] = rest {
        rest = behind;
        let Some(mark) = MARKS.find(char::from(*letter)) else {
            out.push(*letter);
            continue;
        };
        let (far, long) = (mark % 4 + 1, mark / 4 + 1);
        let (back, count) = (number(&rest[..far]), number(&rest[far..far + long]));
        for _ in 0..count {
            out.push(out[out.len() - back]);
        }
        rest = &rest[far + long..];
    }
    out
}

/// Numbers of two digits each.
pub fn numbers(value: &Value) -> Vec<usize> {
    unpacked(value.text()).chunks(2).map(number).collect()
}

/// The kinds of the cells of each sheet of a reading.
pub fn sheets(reading: &Value, nodes: usize) -> Vec<Vec<usize>> {
    let wide = reading.get("wide").number() as usize;
    let text = unpacked(reading.get("cells").text());
    let same = text
        .chunks(wide + 1)
        .map(|x| (number(&x[..wide]), number(&x[wide..])));
    let cells: Vec<usize> = same.flat_map(|x| std::iter::repeat_n(x.0, x.1)).collect();
    cells.chunks(nodes * nodes).map(<[usize]>::to_vec).collect()
}

/// The runs of a reading: the threads, and the bytes of the trace.
pub fn runs(reading: &Value) -> Vec<(usize, Vec<u8>)> {
    let text = unpacked(reading.get("runs").text());
    let runs = text.split(|x| *x == b';').filter(|x| !x.is_empty());
    runs.map(|x| (number(&x[..1]), trace(&x[1..]))).collect()
}

/// The bytes of a trace of which each part is a thread, a node and how many further ones follow it.
pub fn trace(text: &[u8]) -> Vec<u8> {
    let part = |x: &[u8]| {
        let (thread, node, more) = (number(&x[..1]), number(&x[1..3]), number(&x[3..]));
        (node..=node + more).flat_map(move |v| [thread as u8, v as u8])
    };
    text.chunks(4).flat_map(part).collect()
}

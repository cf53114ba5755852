//! What the words for two nodes call them and the barriers around them.

use crate::naming::Naming;
use bohrali::Size;

/// What stands before the letter of a slot; no name and no number has it.
pub const SLOT: char = '\u{1}';

pub struct Terms {
    pub nodes: [String; 2],
    /// Of each node.
    pub starts: [String; 2],
    pub ends: [String; 2],
    /// The starts that both have, and the ends.
    pub common: [String; 2],
    /// The master around each node, and the thread that it is for.
    pub masters: [String; 2],
    pub threads: [String; 2],
    /// The size of the team, where one is named.
    pub size: String,
    /// What stands for the path by which a construct returns, where that is filled in later.
    pub path: Option<String>,
}

impl Terms {
    /// Numbers.
    pub fn of(naming: &Naming, size: Option<Size>, a: usize, b: usize) -> Terms {
        let view = naming.view;
        let named = |masks: &[u64]| [a, b].map(|v| naming.barriers(masks[v]));
        let common = |masks: &[u64]| naming.barriers(masks[a] & masks[b]);
        let master = |v: usize| view.master(v).map(|c| naming.framed(c));
        let thread = |v: usize| view.filter(v).map(|x| x.to_string());
        Terms {
            nodes: [a, b].map(|v| v.to_string()),
            starts: named(&view.starts),
            ends: named(&view.ends),
            common: [common(&view.starts), common(&view.ends)],
            masters: [a, b].map(|v| master(v).unwrap_or_default()),
            threads: [a, b].map(|v| thread(v).unwrap_or_default()),
            size: size.map_or(String::new(), |x| x.0.to_string()),
            path: None,
        }
    }

    /// Slots that are filled in later: words with slots are the same for all pairs of a kind. The letters are `a` and
    /// `b` for the nodes, `s` and `t` for their starts, `e` and `f` for their ends, `S` and `E` for what is common, `m`
    /// and `n` for their masters, `x` and `y` for the threads of these, `z` for the size, and `p` for the path by which
    /// a construct returns.
    pub fn slots() -> Terms {
        let slot = |letter: char| String::from_iter([SLOT, letter]);
        let slots = |letters: [char; 2]| letters.map(slot);
        Terms {
            nodes: slots(['a', 'b']),
            starts: slots(['s', 't']),
            ends: slots(['e', 'f']),
            common: slots(['S', 'E']),
            masters: slots(['m', 'n']),
            threads: slots(['x', 'y']),
            size: slot('z'),
            path: Some(slot('p')),
        }
    }
}

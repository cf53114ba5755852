//! Lines that have code in some chart and that a region comes to by a call which its own chart does not
//! open. A thread in such a routine stands at the call.

use crate::flow::SourceLine;
use crate::program::{Program, Target};
use std::cell::RefCell;
use std::collections::{BTreeMap, BTreeSet};

pub(crate) struct Carried<'a> {
    program: &'a Program,
    held: BTreeSet<SourceLine>,
    /// Whether calls of a function come to such a line.
    comes: Vec<bool>,
    known: RefCell<BTreeMap<usize, BTreeSet<SourceLine>>>,
}

impl<'a> Carried<'a> {
    /// Of a program whose charts hold these lines.
    pub fn new(program: &'a Program, held: BTreeSet<SourceLine>) -> Carried<'a> {
        let mut carried = Carried {
            program,
            held,
            comes: Vec::new(),
            known: RefCell::default(),
        };
        let own = program.bodies().map(|x| x.0);
        let own = own.filter(|&x| carried.own(x).next().is_some()).collect();
        carried.comes = program.coming_to(own, |_, _| true);
        carried
    }

    /// The lines of a function that some chart holds.
    fn own(&self, function: usize) -> impl Iterator<Item = SourceLine> + '_ {
        let body = self.program.functions[function].body.as_ref().ok();
        let nodes = body.into_iter().flat_map(|x| &x.nodes);
        let lines = nodes.flat_map(|x| x.lines.iter().copied());
        lines.filter(|x| self.held.contains(x))
    }

    /// Those that a call may come to.
    pub fn lines(&self, target: Target) -> BTreeSet<SourceLine> {
        let Target::Known(function) = target else {
            return BTreeSet::new();
        };
        if !self.comes[function] {
            return BTreeSet::new();
        }
        if let Some(lines) = self.known.borrow().get(&function) {
            return lines.clone();
        }
        let reached = self.program.reached([target]);
        let functions = reached.into_iter().filter_map(|x| match x {
            Target::Known(function) => Some(function),
            _ => None,
        });
        let lines: BTreeSet<SourceLine> = functions.flat_map(|x| self.own(x)).collect();
        self.known.borrow_mut().insert(function, lines.clone());
        lines
    }
}

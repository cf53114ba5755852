//! The units of a program put together: which routine a call comes to.

use crate::flow::{Body, Callee, FlowNode, Function, NodeKind, Unit, Word, Words};
use crate::problem::Problem;
use crate::reader;
use crate::units::UnitFlow;
use region::load;
use std::collections::{BTreeMap, BTreeSet, HashMap};
use std::path::Path;

/// What a call comes to.
#[derive(Clone, Copy, Debug, PartialEq, Eq, PartialOrd, Ord)]
pub(crate) enum Target {
    /// A function by its number.
    Known(usize),
    Unknown(Word),
    Pointer,
    /// A routine of the C library.
    Library,
}

#[derive(Debug, Default)]
pub struct Program {
    pub(crate) words: Words,
    pub(crate) functions: Vec<Function>,
    /// The unit of each function, and what is known of units.
    pub(crate) units: Vec<usize>,
    pub(crate) sources: Vec<UnitFlow>,
    /// What each unit's own symbols stand for, and what those of all units do.
    local: Vec<HashMap<Word, usize>>,
    public: HashMap<Word, usize>,
    /// Symbols that stand for different routines in different units.
    ambiguous: BTreeSet<Word>,
    /// Whether a call of a function may run a barrier or a construct of its caller's team.
    matters: Vec<bool>,
}

impl Program {
    /// The program of flow files, or all that is wrong with them.
    pub fn read(paths: &[impl AsRef<Path>]) -> Result<Program, Vec<Problem>> {
        Program::gather(paths.iter().map(|path| {
            let name = path.as_ref().display().to_string();
            match load::bytes(path.as_ref(), reader::MOST_BYTES) {
                Ok(bytes) => Ok((name, bytes)),
                Err(message) => Err(Problem::whole(&name, message)),
            }
        }))
    }

    /// The program of flows with their names.
    pub fn of(flows: &[(&str, &[u8])]) -> Result<Program, Vec<Problem>> {
        let owned = flows.iter().map(|x| (x.0.to_string(), x.1.to_vec()));
        Program::gather(owned.map(Ok))
    }

    fn gather(
        flows: impl Iterator<Item = Result<(String, Vec<u8>), Problem>>,
    ) -> Result<Program, Vec<Problem>> {
        let mut program = Program::default();
        let mut units = Vec::new();
        let mut problems = Vec::new();
        for flow in flows {
            let unit =
                flow.and_then(|(name, bytes)| reader::read(&name, &bytes, &mut program.words));
            match unit {
                Ok(unit) => units.push(unit),
                Err(problem) => problems.push(problem),
            }
        }
        if !problems.is_empty() {
            return Err(problems);
        }
        program.link(units);
        Ok(program)
    }

    fn link(&mut self, units: Vec<Unit>) {
        let mut aliases = Vec::new();
        for (number, unit) in units.into_iter().enumerate() {
            self.local.push(HashMap::new());
            self.sources.push(UnitFlow {
                hash: unit.hash,
                path: unit.path,
            });
            for function in unit.functions {
                let symbol = function.symbol;
                let is_public = function.is_public;
                self.units.push(number);
                self.functions.push(function);
                self.define(number, symbol, self.functions.len() - 1, is_public);
            }
            aliases.extend(unit.aliases.into_iter().map(|x| (number, x)));
        }
        for (unit, alias) in aliases {
            if let Some(function) = self.named(unit, alias.target) {
                self.define(unit, alias.symbol, function, alias.is_public);
            }
        }
        self.matters = self.mattering();
    }

    fn define(&mut self, unit: usize, symbol: Word, function: usize, is_public: bool) {
        self.local[unit].entry(symbol).or_insert(function);
        if !is_public {
            return;
        }
        let first = *self.public.entry(symbol).or_insert(function);
        if first != function && !alike(&self.functions[first], &self.functions[function]) {
            self.ambiguous.insert(symbol);
        }
    }

    /// The function that a symbol stands for in a unit.
    fn named(&self, unit: usize, symbol: Word) -> Option<usize> {
        let local = self.local.get(unit)?.get(&symbol).copied();
        let public = self.public.get(&symbol).copied();
        let is_own = local.is_some_and(|x| !self.functions[x].is_public);
        if is_own {
            return local;
        }
        local
            .or(public)
            .filter(|_| !self.ambiguous.contains(&symbol))
    }

    /// What a call in a function comes to. A function that was given up is not known.
    pub(crate) fn target(&self, caller: usize, callee: Callee) -> Target {
        let (Callee::Routine(symbol) | Callee::Library(symbol)) = callee else {
            return Target::Pointer;
        };
        let found = self.named(self.units[caller], symbol);
        match found.filter(|&x| self.functions[x].body.is_ok()) {
            Some(function) => Target::Known(function),
            None if found.is_none() && self.is_library(callee, symbol) => Target::Library,
            None => Target::Unknown(symbol),
        }
    }

    /// Whether a routine that the program does not define is one of the C library, as the compiler knows it,
    /// or of OpenMP's or the compiler's runtime, to which these names belong.
    fn is_library(&self, callee: Callee, symbol: Word) -> bool {
        let name = self.words.text(symbol);
        let is_runtime = |x: &&str| name.starts_with(x);
        matches!(callee, Callee::Library(_))
            || ["omp_", "_gfortran_", "__cxa_"].iter().any(is_runtime)
    }

    /// The bodies of all functions that were not given up, by number.
    pub(crate) fn bodies(&self) -> impl Iterator<Item = (usize, &Body)> {
        let numbered = self.functions.iter().enumerate();
        numbered.filter_map(|(number, x)| Some((number, x.body.as_ref().ok()?)))
    }

    pub(crate) fn matters(&self, function: usize) -> bool {
        self.matters.get(function).copied().unwrap_or(false)
    }

    /// The functions with a barrier or a construct of the caller's team, and those whose calls come to one.
    fn mattering(&self) -> Vec<bool> {
        let is_callers = |body: &Body, node: &FlowNode| !in_own_region(body, node.within);
        let has_own = |body: &Body| {
            let binds = |x: &FlowNode| {
                let is_of_team = |x: usize| body.directives[x].kind.is_of_team();
                match x.kind {
                    NodeKind::Barrier | NodeKind::Weak => true,
                    NodeKind::Open => x.of.is_some_and(is_of_team),
                    _ => false,
                }
            };
            body.nodes.iter().any(|x| is_callers(body, x) && binds(x))
        };
        let own = self.bodies().filter(|x| has_own(x.1)).map(|x| x.0);
        self.coming_to(own.collect(), is_callers)
    }

    /// Whether each function is one of these, or its calls, as far as they count, come to one.
    pub(crate) fn coming_to(
        &self,
        mut work: Vec<usize>,
        counts: impl Fn(&Body, &FlowNode) -> bool,
    ) -> Vec<bool> {
        let mut callers: Vec<Vec<usize>> = vec![Vec::new(); self.functions.len()];
        for (caller, body) in self.bodies() {
            for node in body.nodes.iter().filter(|x| counts(body, x)) {
                if let Some(Target::Known(callee)) = node.callee.map(|x| self.target(caller, x)) {
                    callers[callee].push(caller);
                }
            }
        }
        let mut comes = vec![false; self.functions.len()];
        while let Some(function) = work.pop() {
            if !std::mem::replace(&mut comes[function], true) {
                work.extend(&callers[function]);
            }
        }
        comes
    }

    /// All that calls from these targets on may come to, by whatever path.
    pub(crate) fn reached(&self, from: impl IntoIterator<Item = Target>) -> BTreeSet<Target> {
        let mut seen = BTreeSet::new();
        let mut work: Vec<Target> = from.into_iter().collect();
        while let Some(target) = work.pop() {
            if !seen.insert(target) {
                continue;
            }
            let Target::Known(function) = target else {
                continue;
            };
            if let Ok(body) = &self.functions[function].body {
                let callees = body.nodes.iter().filter_map(|x| x.callee);
                work.extend(callees.map(|x| self.target(function, x)));
            }
        }
        seen
    }

    /// Functions that were given up, with the reason.
    pub fn given_up(&self) -> BTreeMap<String, String> {
        let reason = |x: &Function| {
            let why = x.body.as_ref().err()?;
            Some((self.words.text(x.symbol).into(), why.clone()))
        };
        self.functions.iter().filter_map(reason).collect()
    }
}

/// Whether a place lies in a region of the function's own, or in code that is no flow of the caller.
fn in_own_region(body: &Body, within: Option<usize>) -> bool {
    use crate::flow::DirectiveKind::Parallel;
    body.around(within).any(|x| {
        let kind = body.directives[x].kind;
        kind == Parallel || kind.is_elsewhere()
    })
}

/// Whether two functions of one name are the same text, compiled twice, as inline ones are.
fn alike(one: &Function, other: &Function) -> bool {
    let (Ok(a), Ok(b)) = (&one.body, &other.body) else {
        return false;
    };
    a.edges == b.edges
        && a.frames == b.frames
        && a.nodes.len() == b.nodes.len()
        && a.nodes.iter().zip(&b.nodes).all(|(x, y)| {
            let lines =
                |x: &crate::flow::FlowNode| x.lines.iter().map(|x| x.line).collect::<Vec<_>>();
            (x.kind, x.within, x.of, x.callee) == (y.kind, y.within, y.of, y.callee)
                && lines(x) == lines(y)
        })
        && a.directives.iter().zip(&b.directives).all(|(x, y)| {
            (x.kind, x.parent, x.name, x.filter) == (y.kind, y.parent, y.name, y.filter)
        })
}

//! Which directives of a region become constructs of its chart. The others are plain code: what the rule
//! of a construct did by itself becomes edges, so that only nevers are lost.

use crate::flow::{Directive, DirectiveKind, Filter};
use crate::graph::Graph;
use region::ConstructKind;
use std::collections::{BTreeMap, BTreeSet};

/// What is given up to keep within the limits of a chart.
#[derive(Clone, Copy, Debug, Default, PartialEq, Eq)]
pub(crate) struct GivenUp {
    pub calls: bool,
    pub criticals: bool,
    /// Those without ordereds.
    pub dos: bool,
    pub constructs: bool,
    /// How many barriers are kept inside.
    pub barriers: Option<usize>,
}

/// The constructs of a region, by directive.
#[derive(Debug)]
pub(crate) struct Constructs {
    pub kinds: Vec<Option<ConstructKind>>,
    /// What was taken for less than it is, and why, with how often.
    pub lessened: BTreeMap<String, usize>,
    /// Directives that have become edges.
    loosened: BTreeSet<usize>,
}

/// What a directive can be before what is around it is looked at, or why it is nothing.
fn own_kind(graph: &Graph, directive: &Directive) -> Result<ConstructKind, &'static str> {
    let is_taken_as_do = |x: &Directive| x.is_cancelled || x.is_early;
    let kind = match directive.kind {
        _ if directive.is_flat => return Err("not of a shape that is known"),
        DirectiveKind::Single => ConstructKind::Single,
        DirectiveKind::Master => match directive.filter {
            Filter::Thread(0..=65535) => ConstructKind::Master,
            Filter::Thread(_) => return Err("its filter is out of range"),
            Filter::Unknown => return Err("its filter is no constant"),
        },
        DirectiveKind::Critical => ConstructKind::Critical,
        DirectiveKind::For => ConstructKind::Do,
        DirectiveKind::Ordered => ConstructKind::Ordered,
        // The end is left before all sections are taken, or a section is taken before the begin is left.
        DirectiveKind::Sections if is_taken_as_do(directive) => ConstructKind::Do,
        DirectiveKind::Sections => ConstructKind::Sections,
        DirectiveKind::Section => match directive.parent.map(|x| &graph.directives[x]) {
            Some(around) if is_taken_as_do(around) => return Err(""),
            _ => ConstructKind::Section,
        },
        _ => return Err(""),
    };
    Ok(kind)
}

/// Whether one kind may stand anywhere inside another, in one region.
fn may_stand(inner: ConstructKind, outer: ConstructKind) -> bool {
    use ConstructKind::{Critical, Do, Master, Ordered, Section, Sections};
    matches!(
        (inner, outer),
        (Critical, _) | (Master, Critical) | (Ordered, Do) | (Section, Sections)
    )
}

impl Constructs {
    pub fn choose(graph: &Graph) -> Constructs {
        let deeper = graph.at_or_inside(|x| x == DirectiveKind::Parallel);
        let frames = graph.frames();
        let mut chosen = Constructs {
            kinds: Vec::with_capacity(graph.directives.len()),
            lessened: BTreeMap::new(),
            loosened: BTreeSet::new(),
        };
        for (number, directive) in graph.directives.iter().enumerate() {
            let is_here = number != graph.region && frames[number] != [None; 2];
            // A critical keeps no two threads apart in the answers, and its lock is one for all teams.
            let is_critical = directive.kind == DirectiveKind::Critical;
            let kind = if is_here && (deeper[number].is_none() || is_critical) {
                chosen.kind(graph, directive)
            } else {
                None
            };
            chosen.kinds.push(kind);
        }
        chosen
    }

    fn kind(&mut self, graph: &Graph, directive: &Directive) -> Option<ConstructKind> {
        let word = directive.kind.word();
        let kind = match own_kind(graph, directive) {
            Ok(kind) => kind,
            Err("") => return None,
            Err(why) => {
                self.lessen(format!("{word}: {why}"));
                return None;
            }
        };
        if directive.kind == DirectiveKind::Sections && kind == ConstructKind::Do {
            self.lessen(match directive.is_cancelled {
                true => "sections: taken as a do since it can be cancelled".into(),
                false => "sections: taken as a do for its reduction(task)".into(),
            });
        }
        if let Some(why) = self.misplaced(graph, directive, kind) {
            self.lessen(format!("{word}: {why}"));
            return None;
        }
        Some(kind)
    }

    /// Why a construct cannot stand where it does.
    fn misplaced(
        &self,
        graph: &Graph,
        directive: &Directive,
        kind: ConstructKind,
    ) -> Option<String> {
        let above: Vec<usize> = self.enclosing(graph, directive.parent).collect();
        let parent = above
            .first()
            .map(|&x| (self.kinds[x], &graph.directives[x]));
        let is_ordered_do = |x: (Option<ConstructKind>, &Directive)| {
            x.0 == Some(ConstructKind::Do) && x.1.is_ordered
        };
        match kind {
            ConstructKind::Ordered if !parent.is_some_and(is_ordered_do) => {
                return Some("no loop with the clause is around it".into());
            }
            ConstructKind::Section
                if parent.map(|x| x.0) != Some(Some(ConstructKind::Sections)) =>
            {
                return Some("no sections is around it".into());
            }
            _ => {}
        }
        let outer = above.iter().find(|&&x| {
            let outer = &graph.directives[x];
            let is_same = kind == ConstructKind::Critical
                && outer.kind == DirectiveKind::Critical
                && outer.name == directive.name;
            is_same || !self.kinds[x].is_some_and(|outer| may_stand(kind, outer))
        })?;
        Some(format!("inside a {}", graph.directives[*outer].kind.word()))
    }

    /// The directives around a place that are constructs, innermost first.
    pub fn enclosing<'a>(
        &'a self,
        graph: &'a Graph,
        within: Option<usize>,
    ) -> impl Iterator<Item = usize> + 'a {
        let around = std::iter::successors(within, |&x| graph.directives[x].parent);
        around.filter(|&x| self.kinds[x].is_some())
    }

    pub fn lessen(&mut self, what: String) {
        *self.lessened.entry(what).or_default() += 1;
    }

    /// Takes a construct for plain code.
    pub fn dissolve(&mut self, graph: &Graph, directive: usize, why: &str) {
        self.kinds[directive] = None;
        self.lessen(format!(
            "{}: {why}",
            graph.directives[directive].kind.word()
        ));
    }

    /// Takes for plain code what the limits of a chart ask for. What was none before stays none, though
    /// nothing may be around it any more: only nevers are lost.
    pub fn give_up(&mut self, graph: &Graph, given_up: GivenUp) {
        for number in 0..self.kinds.len() {
            let is_over = match self.kinds[number] {
                None => false,
                Some(_) if given_up.constructs => true,
                Some(ConstructKind::Critical) => given_up.criticals,
                Some(ConstructKind::Do) => given_up.dos && !graph.directives[number].is_ordered,
                Some(_) => false,
            };
            if is_over {
                self.dissolve(graph, number, "over the limits of a chart");
            }
        }
    }

    /// Puts edges in the place of all that is no construct; what has no end is none.
    pub fn loosen(&mut self, graph: &mut Graph) {
        let frames = graph.frames();
        for (number, &frame) in frames.iter().enumerate() {
            if self.kinds[number].is_some() && frame.contains(&None) {
                self.dissolve(graph, number, "it has no end");
            }
        }
        self.dissolve_strays(graph);
        for (number, frame) in frames.into_iter().enumerate() {
            let [Some(open), Some(close)] = frame else {
                continue;
            };
            if self.kinds[number].is_none()
                && number != graph.region
                && self.loosened.insert(number)
            {
                loosen(graph, number, open, close);
            }
        }
    }

    /// Ordereds and sections' sections whose construct has been dissolved.
    fn dissolve_strays(&mut self, graph: &Graph) {
        for number in 0..self.kinds.len() {
            let needed = match self.kinds[number] {
                Some(ConstructKind::Ordered) => ConstructKind::Do,
                Some(ConstructKind::Section) => ConstructKind::Sections,
                _ => continue,
            };
            let parent = self
                .enclosing(graph, graph.directives[number].parent)
                .next();
            if parent.and_then(|x| self.kinds[x]) != Some(needed) {
                self.dissolve(graph, number, "what is around it is plain code");
            }
        }
    }
}

/// The ways of those who do not enter, and of another turn.
fn loosen(graph: &mut Graph, directive: usize, open: usize, close: usize) {
    use DirectiveKind::{For, Loop, Master, Sections, Single};
    let kind = graph.directives[directive].kind;
    let first = graph.next[open].clone();
    if matches!(kind, Single | Master | For | Sections | Loop) {
        graph.next[open].insert(close);
    }
    if matches!(kind, For | Sections | Loop) {
        graph.next[close].extend(&first);
    }
}

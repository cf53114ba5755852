//! An answer in words, with its evidence: starts and ends from Phases, constructs from their records.

use crate::naming::Naming;
use crate::terms::Terms;
use bohrali::layout::ConstructKind;
use bohrali::{Answer, Size};
use region::word;

/// Whether a never holds in every run, finished or not. That it does for answers from 2 on, and for answer 1 where the
/// starts have no bit in common, is proved (crate correctness, NeverMet); where it is the ends, it is about runs that finish.
pub fn in_every_run(naming: &Naming, answer: Answer, a: usize, b: usize) -> bool {
    match answer {
        Answer::Concurrent => false,
        Answer::NoCommonPhase => naming.view.starts[a] & naming.view.starts[b] == 0,
        _ => true,
    }
}

/// The answer of the library for two nodes, sentence by sentence.
pub fn words(
    naming: &Naming,
    size: Option<Size>,
    answer: Answer,
    a: usize,
    b: usize,
) -> Vec<String> {
    let terms = Terms::of(naming, size, a, b);
    Pair::of(naming, &terms, a, b).words(size, answer)
}

/// A construct that words are about.
#[derive(Clone, Copy, Debug, PartialEq, Eq, PartialOrd, Ord)]
pub enum About {
    Construct(usize),
    /// The master around the first node, 0, or the second, 1.
    Master(usize),
}

/// Two nodes, which may be one.
pub(crate) struct Pair<'a> {
    naming: &'a Naming<'a>,
    terms: &'a Terms,
    a: usize,
    b: usize,
}

impl Pair<'_> {
    pub fn of<'a>(naming: &'a Naming<'a>, terms: &'a Terms, a: usize, b: usize) -> Pair<'a> {
        Pair {
            naming,
            terms,
            a,
            b,
        }
    }

    pub fn words(&self, size: Option<Size>, answer: Answer) -> Vec<String> {
        let pair = self;
        let mut words = match answer {
            Answer::Concurrent => return pair.concurrent(),
            Answer::NoCommonPhase => vec![pair.no_common_phase()],
            Answer::Master => vec![pair.master()],
            Answer::Single => pair.single(),
            Answer::Ordered => pair.ordered(),
            Answer::Section => pair.section(),
            Answer::OneThread => vec!["Rule 6, one thread: the team has no other.".into()],
            Answer::MissingThread => vec![pair.missing_thread(size.map_or(0, |x| x.0))],
            other => vec![format!("Rule {}.", other as u8)],
        };
        words.push(match in_every_run(self.naming, answer, self.a, self.b) {
        true => "This holds in every run, also in one that does not finish.".into(),
        false => "This is about runs that finish: in one that does not, two threads may be there together.".into(),
    });
        words
    }

    /// The constructs that the words are about: those that keep two threads apart, or the one that would if it did
    /// not return.
    pub fn constructs(&self, size: Option<Size>, answer: Answer) -> Vec<About> {
        let view = self.naming.view;
        let found: Vec<usize> = match answer {
            Answer::Master => return vec![About::Master(0), About::Master(1)],
            Answer::MissingThread => {
                let lacks = |v: usize| size.is_some_and(|x| view.filter(v) >= Some(x.0));
                let both = [self.a, self.b].into_iter().enumerate();
                let lacking = both.filter(|x| lacks(x.1));
                return lacking.map(|x| About::Master(x.0)).collect();
            }
            Answer::Concurrent => self.returning().into_iter().collect(),
            Answer::Single => self.one_single().into_iter().collect(),
            Answer::Ordered => {
                let around = view.around[self.a] | view.around[self.b];
                let ordered = view.of_kind(around, ConstructKind::Ordered);
                self.one_do().into_iter().chain(ordered).collect()
            }
            Answer::Section => {
                let section = self.one_section();
                let sections = section.and_then(|x| view.constructs[x].parent);
                section.into_iter().chain(sections).collect()
            }
            _ => Vec::new(),
        };
        found.into_iter().map(About::Construct).collect()
    }

    fn one_single(&self) -> Option<usize> {
        let view = self.naming.view;
        let common = view.around[self.a] & view.around[self.b];
        let single = view.of_kind(common, ConstructKind::Single).next();
        single
    }

    /// The do of which both are inside ordereds.
    fn one_do(&self) -> Option<usize> {
        let view = self.naming.view;
        let of_do = view.ordered_of(self.a);
        of_do.filter(|_| view.ordered_of(self.b) == of_do)
    }

    fn one_section(&self) -> Option<usize> {
        let view = self.naming.view;
        let common = view.held[self.a] & view.held[self.b];
        let section = view.of_kind(common, ConstructKind::Section).next();
        section
    }

    /// Of nodes that may be met, the construct that lets in one thread in each instance, and returns.
    fn returning(&self) -> Option<usize> {
        let view = self.naming.view;
        let of_section = || view.constructs[self.one_section()?].parent;
        self.one_single()
            .or_else(|| self.one_do())
            .or_else(of_section)
    }

    /// "node 3 is", or "nodes 3 and 4 are".
    fn are(&self) -> String {
        match self.a == self.b {
            true => format!("node {} is", self.terms.nodes[0]),
            false => format!(
                "nodes {} and {} are",
                self.terms.nodes[0], self.terms.nodes[1]
            ),
        }
    }

    fn concurrent(&self) -> Vec<String> {
        let Pair { naming, a, b, .. } = *self;
        let view = naming.view;
        let [starts, ends] = &self.terms.common;
        let leads = if a == b { "leads" } else { "lead" };
        let mut words = vec![format!(
            "Common start and end: {} reached from {starts} and {leads} on to {ends}, past no other barrier; no rule keeps \
             two threads apart there.",
            self.are()
        )];
        if let Some(number) = view.common_name(a, b) {
            let name = naming.name(number).unwrap_or("unnamed".into());
            let inside = match a == b {
                true => "a critical, and its lock",
                false => "criticals of one name, and its lock",
            };
            words.push(format!(
                "One lock ({name}): {} inside {inside} keeps two threads apart there. Answers do not look at locks.",
                self.are()
            ));
        }
        words.extend(self.returning().and_then(|c| self.returns(c)));
        words
    }

    /// Why a construct that lets in one thread in each instance does not keep two apart.
    fn returns(&self, c: usize) -> Option<String> {
        let view = self.naming.view;
        let path: Vec<String> = view.way_back(c)?.iter().map(usize::to_string).collect();
        let path = self.terms.path.clone().unwrap_or(path.join(", "));
        Some(format!(
            "{} inside {}, which returns: a path that passes no barrier leads from its end back to its begin ({}). While one \
             thread is still inside, another may be let in for the next time.",
            capital(&self.are()),
            self.naming.framed(c),
            path
        ))
    }

    fn no_common_phase(&self) -> String {
        let view = self.naming.view;
        let common = view.starts[self.a] & view.starts[self.b];
        let [a, b] = &self.terms.nodes;
        if common == 0 {
            let [of_a, of_b] = &self.terms.starts;
            return format!(
                "Rule 1, no common start: a team leaves a barrier together. Node {a} is reached from {of_a} and node {b} \
                 from {of_b}, past no other barrier; none is common."
            );
        }
        let [of_a, of_b] = &self.terms.ends;
        format!(
            "Rule 1, no common end: both are reached from {}, but node {a} leads on to {of_a} and node {b} to {of_b}, past \
             no other barrier; none is common. With threads at both, the team never comes to one barrier again.",
            self.terms.common[0]
        )
    }

    fn master(&self) -> String {
        let view = self.naming.view;
        let (Some(c), Some(d)) = (view.master(self.a), view.master(self.b)) else {
            return "Rule 2, one thread.".into();
        };
        let [of_a, of_b] = &self.terms.masters;
        let inside = match c == d {
            true => format!("{} inside {of_a}", self.are()),
            false => {
                let [a, b] = &self.terms.nodes;
                format!("node {a} is inside {of_a} and node {b} inside {of_b}")
            }
        };
        let thread = &self.terms.threads[0];
        format!("Rule 2, one thread: {inside}, and thread {thread} alone goes in.")
    }

    fn single(&self) -> Vec<String> {
        let why = "each time round one thread goes in";
        self.exclusive(self.one_single(), "Rule 3, one single", why)
    }

    fn ordered(&self) -> Vec<String> {
        let why = "in one instance of the do one thread at a time is inside its ordereds";
        self.exclusive(self.one_do(), "Rule 4, ordereds of one do", why)
    }

    fn section(&self) -> Vec<String> {
        let section = self.one_section();
        let sections = section.and_then(|x| self.naming.view.constructs[x].parent);
        let which = section.map_or("section".into(), |x| self.naming.construct(x));
        let why = format!("in one instance of the sections one thread takes {which}");
        self.exclusive(sections, &format!("Rule 5, one section ({which})"), &why)
    }

    /// Both inside a construct that lets in one thread in each instance, and does not return.
    fn exclusive(&self, construct: Option<usize>, rule: &str, why: &str) -> Vec<String> {
        let view = self.naming.view;
        let Some(c) = construct else {
            return vec![format!("{rule}.")];
        };
        let own = &view.constructs[c];
        vec![
            format!("{rule}: {} inside {}, and {why}.", self.are(), self.naming.framed(c)),
            format!(
                "The {} construct does not return: no barrier-free path leads from its end {} back to its begin {}; from its end \
                 threads come to {}.",
                word(own.kind),
                own.end,
                own.begin,
                self.naming.barriers(view.ends[own.end])
            ),
        ]
    }

    fn missing_thread(&self, threads: usize) -> String {
        let view = self.naming.view;
        let lacks = |&v: &usize| view.filter(v).is_some_and(|filter| filter >= threads);
        let Some(at) = [self.a, self.b].iter().position(lacks) else {
            return "Rule 7, a missing thread.".into();
        };
        let Terms {
            nodes,
            masters,
            threads,
            size,
            ..
        } = self.terms;
        let (v, master, thread) = (&nodes[at], &masters[at], &threads[at]);
        format!(
            "Rule 7, a missing thread: node {v} is inside {master}, and thread {thread} alone goes in; a team of {size} has \
             none of that number.",
        )
    }
}

fn capital(text: &str) -> String {
    let (first, rest) = text.split_at(text.chars().next().map_or(0, char::len_utf8));
    first.to_uppercase() + rest
}

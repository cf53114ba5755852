//! Which team rule forbids an entry of a recorded run. That it is forbidden is for the proved replay to say;
//! here the entries before it are stepped through again, and the rule is named that the step lacks.

use crate::rules::State;
use crate::view::{Role, View};
use bohrali::layout::ConstructKind;

/// The rule by which the last of these entries, thread and node, is forbidden, where all others are legal.
/// Nodes are called as `named` calls them.
pub fn rule(
    view: &View,
    threads: usize,
    entries: &[(u8, u8)],
    named: impl Fn(usize) -> String,
) -> String {
    let Some(((thread, node), before)) = entries.split_last() else {
        return String::new();
    };
    let (thread, to) = (usize::from(*thread), usize::from(*node));
    let mut state = State::fresh(threads, view.start);
    let mut released: Vec<usize> = Vec::new();
    for &(thread, node) in before {
        let (thread, node) = (usize::from(thread), usize::from(node));
        if thread >= threads || node >= view.nodes() {
            return String::new();
        }
        if state.gathered(view).is_none() {
            state.step(view, thread, node);
            continue;
        }
        released.push(node);
        if released.len() == threads {
            state = State::fresh(threads, view.start);
            state.at = std::mem::take(&mut released);
        }
    }
    if thread >= threads {
        return format!("the team has no thread {thread}");
    }
    if view.role.get(to).is_none_or(|&x| x == Role::Outside) {
        return format!("the region has no node {to}");
    }
    let lacking = Lacking {
        view,
        state: &state,
        thread,
        to,
    };
    lacking.rule(released.len(), &named)
}

/// A step that the rules do not have.
struct Lacking<'a> {
    view: &'a View<'a>,
    state: &'a State,
    thread: usize,
    to: usize,
}

impl Lacking<'_> {
    fn rule(&self, opened: usize, named: &impl Fn(usize) -> String) -> String {
        let no_edge = "no edge leads there";
        let at = self.state.at[self.thread];
        let next = self.state.gathered(self.view).map(|_| opened);
        match (self.view.role[at], next) {
            (_, Some(next)) if next != self.thread => format!(
                "all threads are at a barrier, which opens for them in their order, and thread {next} is next"
            ),
            (Role::Barrier, None) => self.waiting(at, named),
            (Role::Begin(c), _) => self.leaving(c, no_edge),
            (Role::End(c), _) if self.view.kind(c) == ConstructKind::Sections => {
                self.dealing(c, self.state.encounters[self.thread][c], no_edge)
            }
            (Role::End(c), _) if self.view.kind(c) == ConstructKind::Do => {
                "no edge leads there, and no turn of the loop begins there".into()
            }
            _ => no_edge.into(),
        }
    }

    /// At a barrier before all threads are.
    fn waiting(&self, at: usize, named: &impl Fn(usize) -> String) -> String {
        if at == self.view.finish {
            return "the region's end is not left".into();
        }
        let threads = self.state.at.iter().enumerate();
        let elsewhere = threads.filter(|x| *x.1 != at);
        let elsewhere: Vec<String> = elsewhere
            .map(|(thread, &node)| format!("thread {thread} is at {}", named(node)))
            .collect();
        format!(
            "a barrier opens once all threads are at it, and {}",
            elsewhere.join(", ")
        )
    }

    /// At the begin of a construct.
    fn leaving(&self, c: usize, no_edge: &str) -> String {
        let own = &self.view.constructs[c];
        let (thread, encounters) = (self.thread, &self.state.encounters);
        let passes = self.to == own.end;
        let enters = self.view.next[own.begin].contains(&self.to);
        match own.kind {
            ConstructKind::Single if enters && !self.state.is_first(thread, c) => {
                "one thread goes into a single each time, and one has left its begin as often before".into()
            }
            ConstructKind::Single if passes => {
                "the first thread to leave a single's begin goes in, and this one is the first".into()
            }
            ConstructKind::Master if enters && thread != own.filter => {
                format!("thread {} alone goes in", own.filter)
            }
            ConstructKind::Master if passes => format!("thread {thread} is the one that goes in"),
            ConstructKind::Ordered if enters => {
                "another thread is inside an ordered of that loop".into()
            }
            ConstructKind::Sections => self.dealing(c, encounters[thread][c] + 1, no_edge),
            _ => no_edge.into(),
        }
    }

    /// At the begin or the end of a sections.
    fn dealing(&self, c: usize, instance: u32, no_edge: &str) -> String {
        let left: Vec<usize> = self.state.untaken(self.view, c, instance).collect();
        let is_section = |x: usize| self.view.constructs[x].begin == self.to;
        let own = &self.view.constructs[c].sections;
        match own.iter().any(|&x| is_section(x)) {
            true => "that section is taken already".into(),
            false if !left.is_empty() => {
                format!("{} of its sections are not taken yet", left.len())
            }
            false => no_edge.into(),
        }
    }
}

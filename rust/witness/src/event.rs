//! What a step does, for a person: a construct entered, left, or passed with the reason.

use crate::naming::Naming;
use crate::rules::State;
use crate::view::Role;
use bohrali::layout::ConstructKind;

/// What a thread's step to a node does, in words; nothing where it only goes on.
pub fn event(naming: &Naming, before: &State, thread: usize, to: usize) -> String {
    let view = naming.view;
    let from = before.at[thread];
    match (view.role[from], view.role[to]) {
        (Role::Begin(c), Role::End(d)) if c == d => passed(naming, before, thread, c),
        (Role::Begin(_) | Role::End(_), Role::Begin(x))
            if view.kind(x) == ConstructKind::Section =>
        {
            format!("takes {}", naming.construct(x))
        }
        (Role::Begin(c), _) => format!("enters {}", naming.construct(c)),
        (Role::End(c), _)
            if view.kind(c) == ConstructKind::Do && !view.next[from].contains(&to) =>
        {
            format!("again in {}", naming.construct(c))
        }
        (_, Role::End(c)) => format!("leaves {}", naming.construct(c)),
        _ => String::new(),
    }
}

/// From a begin to its end: straight, and why, or by an edge between them.
fn passed(naming: &Naming, before: &State, thread: usize, c: usize) -> String {
    let own = &naming.view.constructs[c];
    let why = match own.kind {
        ConstructKind::Single if !before.is_first(thread, c) => "another thread has it",
        ConstructKind::Master if thread != own.filter => "not its thread",
        ConstructKind::Sections if own.sections.is_empty() => "it has no section",
        ConstructKind::Sections => "all sections are taken",
        ConstructKind::Do => "no iteration",
        _ => return format!("enters and leaves {}", naming.construct(c)),
    };
    format!("passes {}: {why}", naming.construct(c))
}

//! Wrong rules, planted to show that they would be noticed: most by the comparison, those under which
//! the same pairs are met by traces that the rules forbid.

use reference::answers::Rules;
use reference::chart::Construct;
use reference::sizes::Teams;

#[derive(Clone, Copy, Debug, PartialEq, Eq)]
pub enum Fault {
    /// The single rule without its return condition.
    SingleReturnDropped,
    /// The ordered rule without its return condition.
    OrderedReturnDropped,
    /// Rule 1 without the test of common ends.
    CommonEndsDropped,
    /// Going straight to a construct's end does not count as leaving its begin.
    StraightUncounted,
    /// The step back at a do's end counts as leaving its begin.
    StepBackCounted,
    /// The begin and end of a section left out of answer 5.
    SectionFrameLeftOut,
    /// Answer 5 without its return condition.
    SectionReturnDropped,
    /// A section that another thread has taken may be taken.
    OthersTakenForgotten,
    /// The end of a sections construct may be left though not all of its sections are taken.
    SectionsLeftEarly,
    /// In a meeting that some thread is past, its sections are not taken for that.
    PastForgotten,
    /// Rule 2 without the filters: both inside masked constructs.
    FilterIgnored,
    /// Rule 2 by the filters' low bytes.
    FilterLowByte,
    /// Any thread may go into a masked construct.
    AnyThreadEnters,
    /// The thread of the filter's number may go past it.
    MaskedSkipped,
    /// Constructs of deeper regions count for the region that is read.
    DeeperConstructsCounted,
    /// A barrier of a deeper region stays one for the region that is read.
    InnerBarrierKept,
    /// The edge from a region's end to its begin is not cut away, and its Finish opens along it.
    EndToBeginKept,
    /// A team of one thread is asked about as one of two.
    OneThreadForgotten,
    /// A filter that equals the size counts as that of a thread of the team.
    FilterAtSizePresent,
    /// With locks: a critical's begin may be left all the same.
    LockDropped,
    /// With locks: another critical of that name does not count.
    LockOfConstruct,
    /// With locks: a critical does not count where it is not the innermost construct.
    LockInnermost,
    /// Whether a lock can be dropped is asked of the critical's own nodes alone, not of all criticals of its name.
    OwnPairsOnly,
    /// A lock that finished runs alone do not need is taken for one that no run needs.
    UnfinishedForgotten,
    /// "No common end" excludes two nodes in runs that do not finish, too.
    EndAlwaysAsked,
}

impl Fault {
    /// Those that change an answer or a pair met.
    pub const COMPARED: [Fault; 14] = [
        Fault::SingleReturnDropped,
        Fault::OrderedReturnDropped,
        Fault::CommonEndsDropped,
        Fault::StraightUncounted,
        Fault::StepBackCounted,
        Fault::SectionFrameLeftOut,
        Fault::SectionReturnDropped,
        Fault::OthersTakenForgotten,
        Fault::FilterIgnored,
        Fault::FilterLowByte,
        Fault::AnyThreadEnters,
        Fault::DeeperConstructsCounted,
        Fault::InnerBarrierKept,
        Fault::EndAlwaysAsked,
    ];
    /// Those that allow further runs, in which no further pair is met.
    pub const TRACED: [Fault; 4] = [
        Fault::SectionsLeftEarly,
        Fault::PastForgotten,
        Fault::MaskedSkipped,
        Fault::EndToBeginKept,
    ];

    /// Those of sizes, which change an answer for a team of just one size.
    pub const SIZED: [Fault; 2] = [Fault::OneThreadForgotten, Fault::FilterAtSizePresent];

    /// Those of the rule with locks, under which a synchronization pair is met.
    pub const LOCKS: [Fault; 3] = [
        Fault::LockDropped,
        Fault::LockOfConstruct,
        Fault::LockInnermost,
    ];

    /// Those of what is said of locks that can be dropped.
    pub const DROPPED: [Fault; 2] = [Fault::OwnPairsOnly, Fault::UnfinishedForgotten];

    /// The teams that the pair rules are asked about in place of others; faults of sizes alone change them.
    pub fn asked(self, teams: Teams) -> Teams {
        match (self, teams) {
            (Fault::OneThreadForgotten, Teams::Of(1)) => Teams::Of(2),
            (Fault::FilterAtSizePresent, Teams::Of(size @ 2..)) => Teams::Of(size + 1),
            _ => teams,
        }
    }

    /// Puts a fault of the pair rules into what they look at; team faults change nothing here.
    pub fn plant(self, rules: &mut Rules) {
        match self {
            Fault::SingleReturnDropped => drop_returns(rules, Construct::SINGLE),
            Fault::OrderedReturnDropped => drop_returns(rules, Construct::DO),
            Fault::CommonEndsDropped => rules.forget_ends(),
            Fault::SectionFrameLeftOut => leave_frames_out(rules),
            Fault::SectionReturnDropped => drop_returns(rules, Construct::SECTIONS),
            Fault::FilterIgnored => change_filters(rules, |_| 0),
            Fault::FilterLowByte => change_filters(rules, |filter| filter % 256),
            Fault::OwnPairsOnly => part_names(rules),
            _ => {}
        }
    }
}

/// Lets the rules believe that the begin and end of a section are not inside it.
fn leave_frames_out(rules: &mut Rules) {
    for (node, sections) in rules.in_section.iter_mut().enumerate() {
        let around = rules.chart.enclosing(node);
        sections.retain(|section| around.contains(section));
    }
}

/// Lets the rules believe in other filters.
fn change_filters(rules: &mut Rules, change: fn(u16) -> u16) {
    for construct in &mut rules.chart.constructs {
        construct.filter = change(construct.filter);
    }
}

/// Lets the rules believe that no two criticals have one name.
fn part_names(rules: &mut Rules) {
    for (number, construct) in rules.chart.constructs.iter_mut().enumerate() {
        construct.name = number as u16;
    }
}

/// Lets the rules believe that no construct of one kind returns.
fn drop_returns(rules: &mut Rules, kind: u8) {
    for (construct, returns) in rules.chart.constructs.iter().zip(&mut rules.phases.returns) {
        *returns &= construct.kind != kind;
    }
}

//! The team rules of sections (02, Note 1) by runs that they allow and runs that they forbid, some of
//! which a planted fault would allow. Chart X has the sections construct from 1 to 7, the sections
//! from 2 to 4 and from 5 to 6.

use explore::fault::Fault;
use explore::team::Team;
use explore::trace::forbidden;
use reference::builder::ChartBuilder;
use reference::chart::{Construct, Node};
use reference::known::chart_x;
use reference::refusals::decode_checked;

/// A step: of a thread to a node.
type Step = (usize, u8);

/// What a run does from one barrier on: both threads go to node 1, then take these steps.
fn interval(steps: &[Step]) -> Vec<Vec<u8>> {
    let mut places = vec![vec![1, 1]];
    for &(thread, node) in steps {
        let mut after = places[places.len() - 1].clone();
        after[thread] = node;
        places.push(after);
    }
    places
}

/// The first entry of a trace that a team of two may not have on a chart.
fn forbidden_on(chart: &[u8], fault: Option<Fault>, trace: &[Vec<u8>]) -> Option<usize> {
    let chart = decode_checked(chart).expect("a valid chart");
    forbidden(&Team::new(&chart, 2, 4).with_fault(fault), trace)
}

fn assert_allowed(chart: &[u8], steps: &[Step]) {
    let trace = interval(steps);
    assert_eq!(forbidden_on(chart, None, &trace), None, "{steps:?}");
}

/// The last step is forbidden, and no other.
fn assert_refused(chart: &[u8], steps: &[Step]) {
    let trace = interval(steps);
    let refused = forbidden_on(chart, None, &trace);
    assert_eq!(refused, Some(steps.len()), "{steps:?}");
}

/// The last step is forbidden, but not under a fault.
fn assert_noticed(chart: &[u8], fault: Fault, steps: &[Step]) {
    assert_refused(chart, steps);
    let with_fault = forbidden_on(chart, Some(fault), &interval(steps));
    assert_eq!(with_fault, None, "{fault:?}, {steps:?}");
}

/// Steps of one thread through some nodes.
fn through(thread: usize, nodes: &[u8]) -> Vec<Step> {
    nodes.iter().map(|&node| (thread, node)).collect()
}

#[test]
fn a_section_is_taken_once() {
    let chart = chart_x(&[]);
    assert_noticed(&chart, Fault::OthersTakenForgotten, &[(0, 2), (1, 2)]);
    let one_each = [through(0, &[2, 3, 4, 7, 8]), through(1, &[5, 6, 7, 8])].concat();
    assert_refused(&chart, &one_each[..5]);
    let by_turns = [
        (0, 2),
        (1, 5),
        (0, 3),
        (1, 6),
        (1, 7),
        (1, 8),
        (0, 4),
        (0, 7),
        (0, 8),
    ];
    assert_allowed(&chart, &by_turns);
    assert_refused(&chart, &[(0, 2), (1, 5), (1, 6), (1, 7), (1, 2)]);
    assert_refused(&chart, &[(0, 2), (0, 3), (0, 4), (0, 7), (0, 2)]);
}

#[test]
fn all_sections_may_be_taken_by_one_thread() {
    let chart = chart_x(&[]);
    let first = through(0, &[2, 3, 4, 7, 5, 6, 7, 8]);
    assert_allowed(&chart, &[first, through(1, &[7, 8])].concat());
    assert_allowed(&chart, &through(0, &[5, 6, 7, 2, 3, 4, 7, 8]));
}

#[test]
fn the_end_is_left_once_all_are_taken() {
    let chart = chart_x(&[]);
    let early = through(0, &[2, 3, 4, 7, 8]);
    assert_noticed(&chart, Fault::SectionsLeftEarly, &early);
    let still_inside = [vec![(1, 5)], early].concat();
    assert_allowed(&chart, &still_inside);
    let returning = chart_x(&[(7, 1)]);
    let early = through(0, &[2, 3, 4, 7, 1]);
    assert_noticed(&returning, Fault::SectionsLeftEarly, &early);
}

#[test]
fn the_begin_leads_straight_to_the_end_once_all_are_taken() {
    for chart in [chart_x(&[]), chart_x(&[(1, 7)])] {
        assert_refused(&chart, &[(0, 7)]);
        assert_refused(&chart, &[(0, 2), (1, 7)]);
        let all = through(0, &[2, 3, 4, 7, 5]);
        assert_allowed(&chart, &[all.clone(), vec![(1, 7), (1, 8)]].concat());
        assert_refused(&chart, &[all.clone(), vec![(1, 2)]].concat());
        assert_refused(&chart, &[all, vec![(1, 5)]].concat());
    }
}

/// Thread 0 has taken both sections and one more in its second meeting: thread 1, whose first
/// meeting it is, finds none.
#[test]
fn in_a_meeting_that_some_thread_is_past_all_are_taken() {
    let chart = chart_x(&[(7, 1)]);
    let ahead = through(0, &[2, 3, 4, 7, 5, 6, 7, 1, 2]);
    for node in [2, 5] {
        let late = [ahead.clone(), vec![(1, node)]].concat();
        assert_noticed(&chart, Fault::PastForgotten, &late);
    }
    let joins = [ahead, vec![(1, 7), (1, 1), (1, 5)]].concat();
    assert_allowed(&chart, &joins);
    let taken_again = [&joins[..joins.len() - 1], &[(1, 2)]].concat();
    assert_refused(&chart, &taken_again);
}

/// A late thread at the end of a meeting that the other is past leaves it.
#[test]
fn a_late_thread_leaves_the_end() {
    let chart = chart_x(&[(7, 1)]);
    let parked = [vec![(1, 5)], through(0, &[2, 3, 4, 7, 1, 2])].concat();
    let at_end = [parked, vec![(1, 6), (1, 7)]].concat();
    assert_noticed(
        &chart,
        Fault::PastForgotten,
        &[&at_end[..], &[(1, 2)]].concat(),
    );
    assert_refused(&chart, &[&at_end[..], &[(1, 5)]].concat());
    assert_allowed(&chart, &[&at_end[..], &[(1, 8)]].concat());
    assert_allowed(&chart, &[&at_end[..], &[(1, 1), (1, 5)]].concat());
}

#[test]
fn going_straight_is_a_meeting() {
    let chart = chart_x(&[(7, 1)]);
    let all = through(0, &[2, 3, 4, 7, 5, 6, 7]);
    let again = [all, vec![(1, 7), (1, 1), (1, 2)]].concat();
    assert_allowed(&chart, &again);
    assert_allowed(&chart, &[&again[..], &[(0, 8)]].concat());
}

/// Chart X with a barrier behind it that leads back.
#[test]
fn no_section_is_taken_after_an_opening() {
    let mut chart = ChartBuilder::from_chart(&decode_checked(&chart_x(&[])).unwrap());
    chart.barrier();
    chart.edge(8, 1);
    chart.edge(8, 9);
    assert_eq!(chart.nodes[8].kind, Node::BARRIER);
    let all = through(0, &[2, 3, 4, 7, 5, 6, 7, 8]);
    let first = interval(&[all, through(1, &[7, 8])].concat());
    for other in [2, 5] {
        let second = interval(&[(1, other)]);
        let trace = [first.clone(), second].concat();
        assert_eq!(forbidden_on(&chart.bytes(), None, &trace), None);
    }
}

#[test]
fn sections_without_a_section_lead_to_the_end() {
    let mut chart = ChartBuilder::new();
    let sections = chart.construct(Construct::SECTIONS, Construct::NONE, 0);
    chart.barrier();
    chart.begin(sections);
    chart.end(sections);
    chart.barrier();
    chart.row();
    assert_allowed(&chart.bytes(), &[(0, 2), (1, 2), (1, 3), (0, 3)]);
    assert_refused(&chart.bytes(), &[(0, 3)]);
}

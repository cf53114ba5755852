//! Charts of structured code, as a compiler would write them: nodes in the order of the text, edges down
//! it but for loops; constructs, branches and barriers.

use super::NONE;
use crate::random::Random;
use crate::valid::{EDITION_1, NEAR_FILTERS};
use reference::builder::ChartBuilder;
use reference::chart::{Construct, Trailer};
use reference::masked;

/// How deep statements may be in each other.
const DEPTH: usize = 4;
const MOST_CONSTRUCTS: usize = 48;

/// What constructs code has.
#[derive(Clone, Copy)]
pub struct Style {
    /// Kinds outside all other constructs, likelier ones more often.
    kinds: &'static [u8],
    /// Of so many statements four are plain, two branches and one a loop, the others constructs.
    statements: usize,
    /// How many criticals may be in each other.
    criticals: usize,
    /// The filters of masked constructs; none make the chart one of edition 1.
    filters: &'static [u16],
}

impl Style {
    /// Singles, masters, criticals, and dos with ordereds.
    pub const FIRST: Style = Style {
        kinds: &[1, 1, 2, 3, 4, 4],
        statements: 10,
        criticals: 1,
        filters: EDITION_1,
    };

    /// Constructs of all sorts, and more of them.
    pub const ALL: Style = Style {
        kinds: &[1, 1, 2, 2, 3, 4, 4, 6],
        statements: 16,
        criticals: 3,
        filters: NEAR_FILTERS,
    };

    fn edition(&self) -> u16 {
        match self.filters {
            [] => Trailer::EDITION,
            _ => masked::EDITION,
        }
    }
}

/// The chart of some code of about so many nodes.
pub fn chart(random: &mut Random, nodes: usize, style: &Style) -> ChartBuilder {
    let mut code = Code {
        random,
        style,
        chart: ChartBuilder::of_edition(style.edition()),
        nodes,
        exits: Vec::new(),
        scopes: Vec::new(),
    };
    let start = code.chart.barrier();
    code.exits.push(start);
    while !code.is_long() {
        code.statement(DEPTH);
        if code.random.percent(15) {
            code.barrier();
        }
    }
    code.barrier();
    code.chart
}

/// Code that is being written.
struct Code<'r> {
    random: &'r mut Random,
    style: &'r Style,
    chart: ChartBuilder,
    /// How many nodes are wanted.
    nodes: usize,
    /// The nodes from which it goes on.
    exits: Vec<usize>,
    /// The constructs around, each with its kind, the innermost last.
    scopes: Vec<(u8, u8)>,
}

impl Code<'_> {
    fn is_long(&self) -> bool {
        self.chart.nodes.len() >= self.nodes
    }

    fn scope(&self) -> u8 {
        self.scopes.last().map_or(NONE, |&(construct, _)| construct)
    }

    /// Goes on to a node.
    fn follow(&mut self, node: usize) {
        for exit in std::mem::replace(&mut self.exits, vec![node]) {
            self.chart.edge(exit, node);
        }
    }

    fn plain(&mut self) -> usize {
        let node = self.chart.plain(self.scope());
        self.follow(node);
        node
    }

    /// Barriers are outside all constructs.
    fn barrier(&mut self) {
        let node = self.chart.barrier();
        self.follow(node);
    }

    /// One to three statements.
    fn block(&mut self, depth: usize) {
        for _ in 0..self.random.between(1, 3) {
            self.statement(depth);
        }
    }

    fn statement(&mut self, depth: usize) {
        if depth == 0 || self.is_long() {
            self.plain();
            return;
        }
        match self.random.below(self.style.statements) {
            0..4 => {
                self.plain();
            }
            4..6 => self.branch(depth - 1),
            6 => self.repeat(depth - 1),
            _ => self.construct(depth - 1),
        }
    }

    /// A condition, then one block or the other, or none.
    fn branch(&mut self, depth: usize) {
        let condition = self.plain();
        self.block(depth);
        let mut exits = std::mem::replace(&mut self.exits, vec![condition]);
        if self.random.percent(60) {
            self.block(depth);
        }
        self.exits.append(&mut exits);
    }

    /// A condition and a block that leads back to it.
    fn repeat(&mut self, depth: usize) {
        let condition = self.plain();
        self.block(depth);
        self.follow(condition);
    }

    /// A construct of a kind that may be here, around a block; a plain node if there is none.
    fn construct(&mut self, depth: usize) {
        let kind = match self.kind() {
            Some(kind) if self.chart.constructs.len() < MOST_CONSTRUCTS => kind,
            _ => {
                self.plain();
                return;
            }
        };
        self.enclose(kind, |code| match kind {
            Construct::SECTIONS => code.sections(depth),
            _ => code.block(depth),
        });
        // the barrier that ends these, unless it is waived
        let ended = matches!(
            kind,
            Construct::SINGLE | Construct::DO | Construct::SECTIONS
        );
        if ended && self.scopes.is_empty() && self.random.percent(40) {
            self.barrier();
        }
    }

    /// A construct around what is written there.
    fn enclose(&mut self, kind: u8, inside: impl FnOnce(&mut Self)) {
        let name = match kind {
            // another at each depth
            Construct::CRITICAL => self.random.between(0, 9) + 10 * self.criticals(),
            _ => 0,
        };
        let filter = match (kind, self.style.filters) {
            (Construct::MASTER, [_, ..]) => self.random.pick(self.style.filters),
            _ => 0,
        };
        let own = self.chart.add(Construct {
            kind,
            parent: self.scope(),
            name: name as u16,
            filter,
        });
        let begin = self.chart.begin(own);
        self.follow(begin);
        self.scopes.push((own, kind));
        inside(self);
        self.scopes.pop();
        let end = self.chart.end(own);
        self.follow(end);
    }

    /// One to four sections, as far as there may be more constructs; each begins where the sections do.
    fn sections(&mut self, depth: usize) {
        let begin = std::mem::take(&mut self.exits);
        let mut ends = Vec::new();
        for _ in 0..self.random.between(1, 4) {
            if self.chart.constructs.len() < MOST_CONSTRUCTS {
                self.exits = begin.clone();
                self.enclose(Construct::SECTION, |code| code.block(depth));
                ends.append(&mut self.exits);
            }
        }
        self.exits = if ends.is_empty() { begin } else { ends };
    }

    /// The criticals around.
    fn criticals(&self) -> usize {
        let critical = |&&(_, kind): &&(u8, u8)| kind == Construct::CRITICAL;
        self.scopes.iter().filter(critical).count()
    }

    /// By the nesting table: outermost anything but an ordered; directly in a do an ordered; directly in
    /// an outermost critical a master; else a critical, unless there are enough around.
    fn kind(&mut self) -> Option<u8> {
        use Construct as C;
        let most = self.style.criticals;
        match self.scopes.last() {
            None => Some(self.random.pick(self.style.kinds)),
            Some((_, C::DO)) if self.random.percent(60) => Some(C::ORDERED),
            Some((_, C::CRITICAL))
                if self.scopes.len() == 1 && (most == 1 || self.random.percent(40)) =>
            {
                Some(C::MASTER)
            }
            _ => (self.criticals() < most).then_some(C::CRITICAL),
        }
    }
}

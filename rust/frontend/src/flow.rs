//! Control flow as frontend/gcc writes it: units with their functions, and of each function the nodes, the
//! edges and the OpenMP directives. Paths and symbols are numbers; `Words` has the texts.

use std::collections::HashMap;

/// A text by its number.
#[derive(Clone, Copy, Debug, PartialEq, Eq, PartialOrd, Ord, Hash)]
pub struct Word(u32);

/// Texts, each with one number.
#[derive(Debug, Default)]
pub struct Words {
    texts: Vec<String>,
    numbers: HashMap<String, Word>,
}

impl Words {
    pub fn number(&mut self, text: &str) -> Word {
        if let Some(&word) = self.numbers.get(text) {
            return word;
        }
        // A flow of 4 GiB words is longer than any that is read.
        let word = Word(self.texts.len() as u32);
        self.texts.push(text.into());
        self.numbers.insert(text.into(), word);
        word
    }

    pub fn text(&self, word: Word) -> &str {
        self.texts.get(word.0 as usize).map_or("", String::as_str)
    }
}

/// A source line.
#[derive(Clone, Copy, Debug, PartialEq, Eq, PartialOrd, Ord, Hash)]
pub struct SourceLine {
    pub file: Word,
    pub line: u32,
}

#[derive(Clone, Copy, Debug, PartialEq, Eq)]
pub enum DirectiveKind {
    Parallel,
    Single,
    Master,
    Critical,
    For,
    Ordered,
    Sections,
    Section,
    Task,
    Target,
    Teams,
    /// A scope, taskgroup or scan: all threads walk through it.
    Through,
    /// Simd, distribute, taskloop: iterations that the thread runs.
    Loop,
}

impl DirectiveKind {
    /// By the words of the flow.
    pub const WORDS: [(&'static str, DirectiveKind); 13] = [
        ("parallel", DirectiveKind::Parallel),
        ("single", DirectiveKind::Single),
        ("master", DirectiveKind::Master),
        ("critical", DirectiveKind::Critical),
        ("for", DirectiveKind::For),
        ("ordered", DirectiveKind::Ordered),
        ("sections", DirectiveKind::Sections),
        ("section", DirectiveKind::Section),
        ("task", DirectiveKind::Task),
        ("target", DirectiveKind::Target),
        ("teams", DirectiveKind::Teams),
        ("through", DirectiveKind::Through),
        ("loop", DirectiveKind::Loop),
    ];

    pub fn word(self) -> &'static str {
        let found = Self::WORDS.iter().find(|x| x.1 == self);
        found.map_or("", |x| x.0)
    }

    /// Whether its body is no flow of the thread that meets it.
    pub fn is_elsewhere(self) -> bool {
        matches!(self, Self::Task | Self::Target | Self::Teams)
    }

    /// Whether it is a construct of the team around it.
    pub fn is_of_team(self) -> bool {
        use DirectiveKind::{Critical, For, Master, Ordered, Sections, Single};
        matches!(self, Single | Master | Critical | For | Ordered | Sections)
    }
}

/// The thread of a masked.
#[derive(Clone, Copy, Debug, PartialEq, Eq)]
pub enum Filter {
    Thread(i64),
    /// It is no constant.
    Unknown,
}

#[derive(Clone, Debug)]
pub struct Directive {
    pub kind: DirectiveKind,
    pub parent: Option<usize>,
    pub place: SourceLine,
    /// Of a shape that the compiler does not give it: taken as plain code.
    pub is_flat: bool,
    /// A for with the clause ordered.
    pub is_ordered: bool,
    /// A sections or a parallel that can be cancelled.
    pub is_cancelled: bool,
    /// A sections of which a section is taken before its begin is left.
    pub is_early: bool,
    /// Of a critical.
    pub name: Option<Word>,
    pub filter: Filter,
    /// Of a parallel with a constant number of threads.
    pub threads: Option<i64>,
}

#[derive(Clone, Copy, Debug, PartialEq, Eq)]
pub enum NodeKind {
    Plain,
    Call,
    Barrier,
    /// A barrier that can be cancelled, or that OpenMP does not promise.
    Weak,
    Open,
    Close,
    Entry,
    Exit,
}

impl NodeKind {
    /// By the words of the flow.
    pub const WORDS: [(&'static str, NodeKind); 8] = [
        ("plain", NodeKind::Plain),
        ("call", NodeKind::Call),
        ("barrier", NodeKind::Barrier),
        ("weak", NodeKind::Weak),
        ("open", NodeKind::Open),
        ("close", NodeKind::Close),
        ("entry", NodeKind::Entry),
        ("exit", NodeKind::Exit),
    ];
}

/// What a call node calls.
#[derive(Clone, Copy, Debug, PartialEq, Eq)]
pub enum Callee {
    Pointer,
    Routine(Word),
    /// A routine of the C library, unless the program has one of that name.
    Library(Word),
}

#[derive(Clone, Debug)]
pub struct FlowNode {
    pub kind: NodeKind,
    /// The directive whose body it stands in.
    pub within: Option<usize>,
    /// The directive that it opens or closes.
    pub of: Option<usize>,
    pub callee: Option<Callee>,
    pub lines: Vec<SourceLine>,
    /// A recorded run has no entry for it.
    pub is_mute: bool,
}

#[derive(Debug, Default)]
pub struct Body {
    pub directives: Vec<Directive>,
    pub nodes: Vec<FlowNode>,
    /// Rising, each once.
    pub edges: Vec<(usize, usize)>,
    pub entry: usize,
    pub exit: usize,
    /// The nodes of each directive: where it is opened and, if it is, closed.
    pub frames: Vec<(usize, Option<usize>)>,
}

impl Body {
    /// The directives around a place, innermost first.
    pub fn around(&self, within: Option<usize>) -> impl Iterator<Item = usize> + '_ {
        std::iter::successors(within, |&x| self.directives[x].parent)
    }

    /// The directives of a kind, rising.
    pub fn of_kind(&self, kind: DirectiveKind) -> impl Iterator<Item = usize> + '_ {
        let numbered = self.directives.iter().enumerate();
        numbered.filter(move |x| x.1.kind == kind).map(|x| x.0)
    }
}

#[derive(Debug)]
pub struct Function {
    pub symbol: Word,
    pub is_public: bool,
    /// By which a recorded run names it.
    pub mark: u64,
    /// Or why the compiler's side gave it up.
    pub body: Result<Body, String>,
}

#[derive(Debug)]
pub struct Alias {
    pub symbol: Word,
    pub target: Word,
    pub is_public: bool,
}

/// What was compiled at once.
#[derive(Debug, Default)]
pub struct Unit {
    pub path: String,
    /// Of all rows that decide, as the compiler's side has it.
    pub hash: Option<String>,
    pub functions: Vec<Function>,
    pub aliases: Vec<Alias>,
}

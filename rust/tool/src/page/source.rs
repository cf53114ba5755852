//! Source lines for the page.

use region::load::{self, MOST_BYTES};
use region::Lines;
use std::collections::BTreeMap;
use std::path::{absolute, Component, Path, PathBuf};

/// The most lines that are shown of one node, and the most letters of each; what is cut off is told by a sign.
const MOST_LINES: usize = 12;
const MOST_LETTERS: usize = 200;
const CUT: &str = " …";

/// The files below a folder, each read once.
pub struct Source {
    folder: Option<PathBuf>,
    files: BTreeMap<String, Vec<String>>,
}

impl Source {
    pub fn below(folder: Option<&Path>) -> Source {
        Source {
            folder: folder.map(PathBuf::from),
            files: BTreeMap::new(),
        }
    }

    /// The lines that a cell names first, of a file that is there.
    pub fn code(&mut self, cell: &str) -> String {
        let each = Lines::in_cell(cell);
        each.filter_map(|x| self.lines(&x))
            .next()
            .unwrap_or_default()
    }

    fn lines(&mut self, wanted: &Lines) -> Option<String> {
        let folder = self.folder.as_ref()?;
        let file = self.files.entry(wanted.file.clone());
        let lines = file.or_insert_with(|| read(folder, &wanted.file));
        let (first, last) = (wanted.first as usize - 1, wanted.last as usize);
        let lines = lines.get(first..last)?;
        let shown = lines.iter().take(MOST_LINES).cloned();
        let more = (lines.len() > MOST_LINES).then(|| CUT.trim_start().into());
        Some(shown.chain(more).collect::<Vec<_>>().join("\n"))
    }
}

/// The lines of a file, named from the folder or from the root; none where it is not below the folder: a table may name
/// any file.
fn read(folder: &Path, file: &str) -> Vec<String> {
    let root = absolute(folder).unwrap_or_default();
    let file = Path::new(file);
    let file = file.strip_prefix(root).unwrap_or(file);
    let is_below = |x: Component| matches!(x, Component::Normal(_) | Component::CurDir);
    if !file.components().all(is_below) {
        return Vec::new();
    }
    let bytes = load::bytes(&folder.join(file), MOST_BYTES).unwrap_or_default();
    let text = String::from_utf8_lossy(&bytes);
    text.lines().map(cut).collect()
}

fn cut(line: &str) -> String {
    match line.char_indices().nth(MOST_LETTERS) {
        Some((end, _)) => format!("{}{CUT}", &line[..end]),
        None => line.into(),
    }
}

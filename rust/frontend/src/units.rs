//! What decisions about locks need beside the tables: the units of the program with the hashes of their flows,
//! and where each critical is in them. A text of rows, units.txt of the directory; its last row is the hash of
//! all tables and notes.

use crate::flow::DirectiveKind;
use crate::problem::Problem;
use crate::program::Program;
use crate::records::table_name;

const HEADER: &str = "bohrali-units 1";
const UNNAMED: &str = "(unnamed)";

/// The flow of a unit.
#[derive(Clone, Debug, PartialEq, Eq, PartialOrd, Ord)]
pub struct UnitFlow {
    /// None where the flow has none.
    pub hash: Option<String>,
    pub path: String,
}

/// A critical of a unit.
#[derive(Clone, Debug, PartialEq, Eq, PartialOrd, Ord)]
pub struct CriticalAt {
    pub unit: UnitFlow,
    pub function: String,
    /// Of its directive in the function's flow.
    pub number: usize,
    /// As the flow has it; empty if it has none.
    pub name: String,
    /// FILE:LINE.
    pub place: String,
}

impl CriticalAt {
    /// Its name as tables have it.
    pub fn table_name(&self) -> String {
        match self.name.as_str() {
            "" => String::new(),
            name => table_name(name),
        }
    }
}

#[derive(Clone, Debug, Default, PartialEq, Eq)]
pub struct Units {
    pub units: Vec<UnitFlow>,
    pub criticals: Vec<CriticalAt>,
}

impl Program {
    pub fn units(&self) -> Units {
        let mut criticals = Vec::new();
        for (function, body) in self.bodies() {
            for number in body.of_kind(DirectiveKind::Critical) {
                let directive = &body.directives[number];
                let name = directive.name.map(|x| self.words.text(x));
                criticals.push(CriticalAt {
                    unit: self.sources[self.units[function]].clone(),
                    function: self.words.text(self.functions[function].symbol).into(),
                    number,
                    name: name.unwrap_or("").into(),
                    place: self.line(directive.place),
                });
            }
        }
        Units {
            units: self.sources.clone(),
            criticals,
        }
    }
}

impl Units {
    /// The text, for tables of this hash.
    pub fn write(&self, tables: &str) -> String {
        let hash = |x: &UnitFlow| x.hash.clone().unwrap_or("-".into());
        let unit = |x: &UnitFlow| format!("unit {} {}\n", hash(x), x.path);
        let critical = |x: &CriticalAt| {
            let name = if x.name.is_empty() { UNNAMED } else { &x.name };
            let number = self.units.iter().position(|y| *y == x.unit).unwrap_or(0);
            format!(
                "critical {number} {} {} {name} {}\n",
                x.function, x.number, x.place
            )
        };
        let units: String = self.units.iter().map(unit).collect();
        let criticals: String = self.criticals.iter().map(critical).collect();
        format!("{HEADER}\n{units}{criticals}tables {tables}\n")
    }

    /// What a text says, with the hash of the tables that it was written with.
    pub fn read(path: &str, text: &str) -> Result<(Units, String), Problem> {
        let mut units = Units::default();
        let mut tables = None;
        for (row, line) in text.lines().enumerate() {
            let wrong = |message: &str| Problem {
                path: path.into(),
                row: Some(row + 1),
                message: message.into(),
            };
            let words: Vec<&str> = line.split(' ').collect();
            match (row, &words[..]) {
                (0, _) if line == HEADER => {}
                (0, _) => return Err(wrong("'bohrali-units 1' is expected")),
                (_, ["unit", hash, path]) => units.units.push(UnitFlow {
                    hash: (*hash != "-").then(|| (*hash).into()),
                    path: (*path).into(),
                }),
                (_, ["critical", cells @ ..]) => {
                    let critical = units.critical(cells);
                    let critical = critical.ok_or_else(|| wrong("this is no critical"))?;
                    units.criticals.push(critical);
                }
                (_, ["tables", hash]) => tables = Some((*hash).to_string()),
                _ => return Err(wrong("this is no row of it")),
            }
        }
        let tables = tables.ok_or_else(|| Problem::whole(path, "it is cut off"))?;
        Ok((units, tables))
    }

    fn critical(&self, cells: &[&str]) -> Option<CriticalAt> {
        let &[unit, function, number, name, place] = cells else {
            return None;
        };
        Some(CriticalAt {
            unit: self.units.get(unit.parse::<usize>().ok()?)?.clone(),
            function: function.into(),
            number: number.parse().ok()?,
            name: if name == UNNAMED { "" } else { name }.into(),
            place: place.into(),
        })
    }
}

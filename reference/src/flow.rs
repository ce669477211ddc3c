//! Load: from a sheet's text to a flow, or to the first ground that holds.

use crate::binders::Binders;
use crate::grounds::Ground;
use crate::kinds::Sort;
use crate::limits;
use crate::rules::Rules;
use crate::sheet::{self, Row};
use crate::slips::Slip;
use crate::syntax::{Code, Type};
use crate::tree::Trees;
use crate::typing::Typing;
use crate::value::Value;

/// An accepted flow.
#[derive(Clone, Debug)]
pub struct Flow {
    pub rules: Rules,
    /// The rows that the sheet loads to.
    pub rows: Vec<Row>,
    /// The cells' first contents.
    pub contents: Vec<Value>,
    /// What the last row says.
    pub code: Code,
    /// The flow's own type.
    pub own_type: Type,
}

impl Flow {
    /// Grounds 1 to 7 in 01's order, each over all lines before the next.
    pub fn load(text: &[u8], rules: Rules) -> Result<Self, Ground> {
        Self::of_rows(sheet::read(text, rules.slip)?, rules)
    }

    /// Grounds 3 to 7, which speak of rows alone.
    pub fn of_rows(rows: Vec<Row>, rules: Rules) -> Result<Self, Ground> {
        let slip = rules.slip;
        sheet::check_listed(&rows, slip)?;
        if slip == Slip::NamingBeforeSorts {
            sheet::check_naming(&rows, slip)?;
        }
        let sorts = sheet::check_sorts(&rows)?;
        if slip == Slip::PlainLastNotNamed && sorts.last() == Some(&Sort::Plain) {
            return Err(Ground::Naming);
        }
        sheet::check_naming(&rows, slip)?;
        if slip == Slip::TypingBeforeLimits {
            typed(&rows, &sorts, rules)?;
        }
        limits::check(&rows, slip)?;
        let (contents, code, own_type) = typed(&rows, &sorts, rules)?;
        Ok(Flow { rules, rows, contents, code, own_type })
    }
}

/// Ground 7: a typing for the last row as a task. Gives the cells' first contents, the last
/// row's code and its type.
fn typed(rows: &[Row], sorts: &[Sort], rules: Rules) -> Result<(Vec<Value>, Code, Type), Ground> {
    if sorts.last() != Some(&Sort::Task) {
        return Err(Ground::Typing);
    }
    let trees = Trees::new(rows);
    let code = trees.code(rows.len() as i32 - 1);
    let (cells, contents): (Vec<Type>, Vec<Value>) =
        trees.cells().map(|(of, first)| (of.clone(), content(&of, first))).unzip();
    let typing = Typing { cells: &cells, slip: rules.slip };
    let own_type = typing.task(&Binders::NONE, &code).ok_or(Ground::Typing)?;
    Ok((contents, code, own_type))
}

/// A cell's first content: a truth (0 or 1, by ground 3) or a number.
fn content(of: &Type, first: i32) -> Value {
    match of {
        Type::Truth => Value::Truth(first != 0),
        _ => Value::Number(first),
    }
}

//! The check of where jumps are allowed.
use crate::*;

#[derive(Clone, Copy)]
struct Exits {
    by_break: bool,
    by_continue: bool,
    by_return: bool,
}

#[derive(Clone, Copy, Debug, PartialEq)]
pub struct MisplacedJump {
    pub statement: u64,
    pub span: Span,
}

pub fn check_jumps(function: &Function) -> Result<(), MisplacedJump> {
    let exits = Exits { by_break: false, by_continue: false, by_return: true };
    walk(&function.body, exits, &mut 0)
}

fn walk(block: &Block, exits: Exits, number: &mut u64) -> Result<(), MisplacedJump> {
    for (statement, span) in block.span_iter() {
        let statement_number = *number;
        *number += 1;
        let is_allowed = match statement {
            Statement::Break => exits.by_break,
            Statement::Continue => exits.by_continue,
            Statement::Return { .. } | Statement::Kill => exits.by_return,
            Statement::Block(block) => {
                walk(block, exits, number)?;
                true
            }
            Statement::If { accept, reject, .. } => {
                walk(accept, exits, number)?;
                walk(reject, exits, number)?;
                true
            }
            Statement::Switch { cases, .. } => {
                for case in cases {
                    walk(&case.body, Exits { by_break: true, ..exits }, number)?;
                }
                true
            }
            Statement::Loop { body, continuing, .. } => {
                walk(body, Exits { by_break: true, by_continue: true, ..exits }, number)?;
                let none = Exits { by_break: false, by_continue: false, by_return: false };
                walk(continuing, none, number)?;
                true
            }
            _ => true,
        };
        if !is_allowed {
            return Err(MisplacedJump { statement: statement_number, span: *span });
        }
    }
    Ok(())
}

//! Workloads on inserting returns into blocks: by naga's function, and by the new rule, which has no function in naga.
use crate::item::{handle, sample, timed};
use crate::terminator::ensure_block_returns as ensure_block_returns_old;
use crate::{Block, Sample, Span, Statement, SwitchCase, SwitchValue};

/// The number of cases of the wide switch.
const CASES: u32 = 16;

type Close = fn(&mut Block);

/// Inserts a return at the end of each tail block that control may fall off.
fn ensure_block_returns(block: &mut Block) {
    let is_open = match block.last_mut() {
        Some(Statement::Block(inner)) => return ensure_block_returns(inner),
        Some(Statement::If { accept, reject, .. }) => {
            ensure_block_returns(accept);
            return ensure_block_returns(reject);
        }
        Some(Statement::Switch { cases, .. }) => {
            let has_exit = has_exit(cases);
            for case in cases.iter_mut().filter(|case| !case.fall_through) {
                ensure_block_returns(&mut case.body);
            }
            has_exit
        }
        Some(Statement::Break | Statement::Continue | Statement::Return { .. } | Statement::Kill) => false,
        _ => true,
    };
    if is_open {
        block.push(Statement::Return { value: None }, Span::UNDEFINED);
    }
}

/// Returns whether control may leave a switch with these cases at its end: it has no default, its last case falls
/// through, or a `Break` leaves it.
fn has_exit(cases: &[SwitchCase]) -> bool {
    !cases.iter().any(|case| case.value == SwitchValue::Default)
        || cases.last().is_some_and(|last| last.fall_through)
        || cases.iter().any(|case| breaks_out(&case.body))
}

/// Returns whether a block contains a `Break` outside every loop and every switch in it.
fn breaks_out(block: &Block) -> bool {
    block.iter().any(|statement| match statement {
        Statement::Break => true,
        Statement::Block(inner) => breaks_out(inner),
        Statement::If { accept, reject, .. } => breaks_out(accept) || breaks_out(reject),
        _ => false,
    })
}

fn block_of(last: Statement) -> Block {
    let mut block = Block::new();
    block.push(last, Span::UNDEFINED);
    block
}

/// Returns a block with `depth` levels of nested blocks, each made by `around`. The innermost are empty.
fn nest(depth: u32, around: fn(Block) -> Statement) -> Block {
    (0..depth).fold(Block::new(), |block, _| block_of(around(block)))
}

fn switched(value: SwitchValue, body: Block) -> Statement {
    Statement::Switch { selector: handle(0), cases: vec![SwitchCase { value, body, fall_through: false }] }
}

fn on_returns(operations: u32, mut block: Block, close: Close) -> Sample {
    let ((), time) = timed(|| close(&mut block));
    close(&mut block);
    sample(operations, 32, block.len() as u64, time)
}

fn on_chain(depth: u32, close: Close) -> Sample {
    on_returns(depth, nest(depth, Statement::Block), close)
}

fn on_tree(depth: u32, close: Close) -> Sample {
    let branched = |block: Block| Statement::If { condition: handle(0), accept: block.clone(), reject: block };
    on_returns(1 << depth, nest(depth, branched), close)
}

fn on_switches(depth: u32, close: Close) -> Sample {
    on_returns(depth, nest(depth, |block| switched(SwitchValue::Default, block)), close)
}

fn on_exits(depth: u32, close: Close) -> Sample {
    on_returns(depth, nest(depth, |block| switched(SwitchValue::U32(0), block)), close)
}

/// One switch without an exit. Each of its cases is a chain of `depth` blocks.
fn on_wide(depth: u32, close: Close) -> Sample {
    let cases = (0..CASES)
        .map(|number| SwitchCase {
            value: if number < CASES - 1 { SwitchValue::U32(number) } else { SwitchValue::Default },
            body: nest(depth, Statement::Block),
            fall_through: false,
        })
        .collect();
    on_returns(depth * CASES, block_of(Statement::Switch { selector: handle(0), cases }), close)
}

pub fn chain(size: u32) -> Sample {
    on_chain(size, ensure_block_returns)
}

pub fn chain_old(size: u32) -> Sample {
    on_chain(size, ensure_block_returns_old)
}

pub fn tree(size: u32) -> Sample {
    on_tree(size, ensure_block_returns)
}

pub fn tree_old(size: u32) -> Sample {
    on_tree(size, ensure_block_returns_old)
}

pub fn switches(size: u32) -> Sample {
    on_switches(size, ensure_block_returns)
}

pub fn switches_old(size: u32) -> Sample {
    on_switches(size, ensure_block_returns_old)
}

pub fn exits(size: u32) -> Sample {
    on_exits(size, ensure_block_returns)
}

pub fn exits_old(size: u32) -> Sample {
    on_exits(size, ensure_block_returns_old)
}

pub fn wide_switch(size: u32) -> Sample {
    on_wide(size, ensure_block_returns)
}

pub fn wide_switch_old(size: u32) -> Sample {
    on_wide(size, ensure_block_returns_old)
}

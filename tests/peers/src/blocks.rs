//! Workloads on blocks of statements.
use crate::item::{mixed, sample, span, timed};
use crate::{Block, Sample, Statement};

fn push_statements(block: &mut Block, size: u32) {
    for number in 0..size {
        block.push(Statement::Kill, span(number));
    }
}

fn filled(size: u32) -> Block {
    let mut block = Block::new();
    push_statements(&mut block, size);
    block
}

/// Times an operation on a block.
fn on_block(size: u32, mut block: Block, run: impl FnOnce(&mut Block)) -> Sample {
    let ((), time) = timed(|| run(&mut block));
    let starts = block.span_iter().map(|(_, span)| span.to_range().unwrap_or(0..0).start as u64);
    sample(size, 0, starts.fold(0, mixed), time)
}

pub fn push(size: u32) -> Sample {
    on_block(size, Block::new(), |block| push_statements(block, size))
}

/// Replaces four statements in the middle of a block, sixteen times.
pub fn splice_cull(size: u32) -> Sample {
    on_block(size, filled(size), |block| {
        for _ in 0..16 {
            let four = filled(4);
            let middle = block.len() / 2;
            block.cull(middle..block.len().min(middle + 4));
            block.splice(middle..middle, four);
        }
    })
}

pub fn replace_by_clone(size: u32) -> Sample {
    on_block(size, filled(size), |block| *block = block.clone())
}

//! Workloads on flattening composed vectors, and on building an arena and a block with an emitter.
use crate::emitter::Emitter;
use crate::item::{mixed, sample, span, timed};
use crate::proc_parts::flatten_compose;
use crate::{Arena, Block, Expression, Handle, Literal, Sample, Scalar, Span, Statement, Type, TypeInner, UniqueArena, VectorSize};

/// Flattens a vector of four components that is composed of a vector and a `Splat`, `size` times.
pub fn flattening(size: u32) -> Sample {
    let (mut types, mut expressions) = (UniqueArena::new(), Arena::new());
    let mut vector = |size| types.insert(Type { name: None, inner: TypeInner::Vector { size, scalar: Scalar::U32 } }, Span::UNDEFINED);
    let (quad, pair) = (vector(VectorSize::Quad), vector(VectorSize::Bi));
    let mut append = |expression| expressions.append(expression, Span::UNDEFINED);
    let numbers = vec![append(Expression::Literal(Literal::U32(1))), append(Expression::Literal(Literal::U32(2)))];
    let composed = append(Expression::Compose { ty: pair, components: numbers });
    let value = append(Expression::Literal(Literal::U32(3)));
    let components = [composed, append(Expression::Splat { size: VectorSize::Bi, value })];
    let (sum, time) = timed(|| {
        let mut sum = 0;
        for _ in 0..size {
            for handle in flatten_compose(quad, &components, &expressions, &types) {
                sum = mixed(sum, handle.index() as u64);
            }
        }
        sum
    });
    sample(size, sum, 0, time)
}

/// A command of `build`.
enum Command {
    Start,
    Append(Expression, Span),
    Finish,
}

/// What `build` builds: expressions, a block, and the ranges that the emitter emitted.
struct Built {
    expressions: Arena<Expression>,
    block: Block,
    emitted: Vec<crate::Range<Expression>>,
}

fn run(commands: Vec<Command>) -> Built {
    let mut built = Built { expressions: Arena::new(), block: Block::new(), emitted: Vec::new() };
    let mut emitter = Emitter::default();
    for command in commands {
        match command {
            Command::Start => emitter.start(&built.expressions),
            Command::Append(expression, span) => {
                built.expressions.append(expression, span);
            }
            Command::Finish => {
                let emitted = emitter.finish(&built.expressions);
                if let Some((Statement::Emit(range), _)) = &emitted {
                    built.emitted.push(range.clone());
                }
                built.block.extend(emitted);
            }
        }
    }
    built
}

/// Builds an arena of `size` expressions, each between a start and a finish of the emitter.
pub fn build(size: u32) -> Sample {
    let mut commands = Vec::new();
    for number in 0..size {
        commands.push(Command::Start);
        commands.push(Command::Append(Expression::Literal(Literal::U32(number)), span(number)));
        commands.push(Command::Finish);
    }
    let (built, time) = timed(|| run(commands));
    sample(size, built.expressions.len() as u64, built.block.len() as u64, time)
}

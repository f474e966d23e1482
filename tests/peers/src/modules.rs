//! The workloads, on the modules of naga_bench.
use crate::bounds;
use crate::item::{handle, mixed, sample, span, timed};
use crate::typifier::{ResolveContext, Typifier};
use crate::*;
use std::num::NonZeroU32;

// Types.

fn typed_expression(
    number: u32,
    scalar: Handle<Expression>,
    last: Handle<Expression>,
) -> Expression {
    match number % 4 {
        0 => Expression::Literal(Literal::U32(number)),
        1 => Expression::Splat { size: VectorSize::Quad, value: last },
        2 => Expression::Binary { op: BinaryOperator::Multiply, left: last, right: scalar },
        _ => Expression::AccessIndex { base: last, index: number % 4 },
    }
}

fn fill_typed(expressions: &mut Arena<Expression>, size: u32) {
    let mut scalar = handle(0);
    let mut last = scalar;
    for number in 0..size {
        let appended = expressions.append(typed_expression(number, scalar, last), span(number));
        if number % 4 == 0 {
            scalar = appended;
        }
        last = appended;
    }
}

pub fn typifier_grow(size: u32) -> Sample {
    let owner = Module::default();
    let mut function = Function::default();
    fill_typed(&mut function.expressions, size);
    let ctx = ResolveContext::with_function(&owner, &function);
    let mut types = Typifier::new();
    let (grown, time) = timed(|| types.grow(&function.expressions, &ctx));
    grown.unwrap();
    sample(size, function.expressions.len() as u64, 0, time)
}

fn declare(owner: &mut Module, inner: TypeInner) -> Handle<Type> {
    owner.types.insert(Type { name: None, inner }, Span::UNDEFINED)
}

fn add_variable(function: &mut Function, ty: Handle<Type>) -> Handle<Expression> {
    let variable = LocalVariable { name: None, ty, init: None };
    let added = function.local_variables.append(variable, Span::UNDEFINED);
    function.expressions.append(Expression::LocalVariable(added), Span::UNDEFINED)
}

fn push_store(body: &mut Block, first: u32, last: u32, pointer: u32, value: u32) {
    let emitted = Range::new_from_bounds(handle(first), handle(last));
    body.push(Statement::Emit(emitted), span(first));
    let store = Statement::Store { pointer: handle(pointer), value: handle(value) };
    body.push(store, span(last));
}

fn sum_of_functions(owner: &Module) -> u64 {
    let mut sum = 0;
    for (_, function) in owner.functions.iter() {
        sum = mixed(sum, function.expressions.len() as u64);
        sum = mixed(sum, function.body.len() as u64);
    }
    sum
}

fn sum_of_accesses(owner: &Module) -> u64 {
    let mut sum = 0;
    for (_, function) in owner.functions.iter() {
        let mut indices = 0;
        for (access, expression) in function.expressions.iter() {
            if let Expression::Access { base, index } = expression {
                indices = mixed(indices, access.index() as u64);
                indices = mixed(indices, base.index() as u64);
                indices = mixed(indices, index.index() as u64);
            }
        }
        sum = mixed(sum, indices);
    }
    sum
}

pub fn check_types(size: u32) -> Sample {
    let mut owner = Module::default();
    let number = declare(&mut owner, TypeInner::Scalar(Scalar::U32));
    let mut function = Function::default();
    add_variable(&mut function, number);
    fill_typed(&mut function.expressions, size);
    for group in 0..size / 4 {
        let first = group * 4 + 2;
        push_store(&mut function.body, first, first + 2, 0, first + 2);
    }
    owner.functions.append(function, Span::UNDEFINED);
    let (checked, time) = timed(|| typing::check_types(&owner));
    checked.unwrap();
    sample(size, sum_of_functions(&owner), 0, time)
}

// Accesses.

fn bounds_module(size: u32, restricts: bool) -> Module {
    let mut owner = Module::default();
    let base = declare(&mut owner, TypeInner::Scalar(Scalar::U32));
    let count = ArraySize::Constant(NonZeroU32::new(16).unwrap());
    let array = declare(&mut owner, TypeInner::Array { base, size: count, stride: 4 });
    let mut function = Function::default();
    let pointer = add_variable(&mut function, array);
    let literal = Expression::Literal(Literal::U32(15));
    let limit = function.expressions.append(literal, Span::UNDEFINED);
    let mut last = limit;
    for number in 0..size {
        let expression = match number % 4 {
            0 => Expression::Access { base: pointer, index: limit },
            1 => Expression::Load { pointer: last },
            2 if restricts => {
                Expression::Binary { op: BinaryOperator::Add, left: last, right: limit }
            }
            2 => Expression::Math {
                fun: MathFunction::Min,
                arg: last,
                arg1: Some(limit),
                arg2: None,
                arg3: None,
            },
            _ => Expression::Access { base: pointer, index: last },
        };
        last = function.expressions.append(expression, span(number));
    }
    for group in 0..size / 4 {
        let first = group * 4 + 2;
        push_store(&mut function.body, first, first + 3, first + 3, first + 1);
    }
    owner.functions.append(function, Span::UNDEFINED);
    owner
}

pub fn check_bounds(size: u32) -> Sample {
    let owner = bounds_module(size, false);
    let (checked, time) = timed(|| bounds::check_bounds(&owner));
    checked.unwrap();
    sample(size, sum_of_functions(&owner), 0, time)
}

pub fn restrict(size: u32) -> Sample {
    let mut owner = bounds_module(size, true);
    let (restricted, time) = timed(|| bounds::restrict(&mut owner));
    restricted.unwrap();
    sample(size, sum_of_functions(&owner), sum_of_accesses(&owner), time)
}

// Jumps.

fn flow_expression(number: u32, previous: Handle<Expression>) -> Expression {
    match number % 4 {
        0 => Expression::Literal(Literal::U32(number)),
        1 => Expression::Load { pointer: previous },
        2 => Expression::Binary { op: BinaryOperator::Add, left: previous, right: previous },
        _ => Expression::Select { condition: previous, accept: previous, reject: previous },
    }
}

fn fill_flow(expressions: &mut Arena<Expression>, size: u32) {
    let mut previous = handle(0);
    for number in 0..size {
        previous = expressions.append(flow_expression(number, previous), span(number));
    }
}

pub fn nest(depth: u32) -> Block {
    let mut block = Block::new();
    block.push(Statement::Kill, Span::UNDEFINED);
    for _ in 0..depth {
        let inner = std::mem::take(&mut block);
        block.push(Statement::Block(inner), Span::UNDEFINED);
        block.push(Statement::Kill, Span::UNDEFINED);
    }
    block
}

fn time_jumps(function: &Function, size: u32) -> Sample {
    let (checked, time) = timed(|| jumps::check_jumps(function));
    checked.unwrap();
    sample(size, function.body.len() as u64, 0, time)
}

pub fn check_jumps(size: u32) -> Sample {
    let mut function = Function::default();
    fill_flow(&mut function.expressions, size * 2);
    for number in 0..size {
        let statement = if number % 2 == 0 {
            let bounds = (handle(number * 2 + 1), handle(number * 2 + 3));
            Statement::Emit(Range::new_from_bounds(bounds.0, bounds.1))
        } else {
            let last = handle(number * 2 + 1);
            Statement::Store { pointer: last, value: last }
        };
        function.body.push(statement, span(number));
    }
    time_jumps(&function, size)
}

pub fn check_jumps_nest(size: u32) -> Sample {
    let mut function = Function::default();
    function.body = nest(size);
    time_jumps(&function, size)
}

// Passes.

fn fill_stores(function: &mut Function, size: u32) {
    fill_flow(&mut function.expressions, size);
    for number in 0..size {
        if number % 8 == 3 {
            let last = handle(number);
            function.body.push(Statement::Store { pointer: last, value: last }, span(number));
        }
    }
}

pub fn compact_function(size: u32) -> Sample {
    let mut function = Function::default();
    fill_stores(&mut function, size);
    let ((), time) = timed(|| compact::compact_function(&mut function));
    sample(size, function.expressions.len() as u64, function.body.len() as u64, time)
}

pub fn compact(size: u32) -> Sample {
    let mut module = Module::default();
    let mut function = Function::default();
    fill_stores(&mut function, size);
    module.functions.append(function, Span::UNDEFINED);
    let ((), time) = timed(|| compact::compact(&mut module));
    sample(size, module.functions.len() as u64, 0, time)
}

pub fn cull_unreachable(size: u32) -> Sample {
    let mut block = nest(size);
    let ((), time) = timed(|| compact::cull_unreachable(&mut block));
    sample(size, block.len() as u64, 0, time)
}

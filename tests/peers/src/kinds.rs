//! Workloads on literals, on the tables of kinds, and on the values of constant expressions.
use crate::item::{mixed, sample, span, timed};
use crate::proc_parts::GlobalCtx;
use crate::{Arena, Constant, Expression, Literal, MathFunction, Sample, Scalar, UniqueArena};

/// Creates literals of four scalars, and sums their widths.
pub fn literal_new(size: u32) -> Sample {
    let scalars = [Scalar::F32, Scalar::I32, Scalar::U64, Scalar::F16];
    let (sum, time) = timed(|| {
        let literals = (0..size).filter_map(|number| Literal::new((number % 256) as u8, scalars[number as usize % 4]));
        literals.fold(0, |sum, literal| mixed(sum, literal.width().into()))
    });
    sample(size, sum, 0, time)
}

/// Sums the numbers of arguments of four functions.
pub fn kind_tables(size: u32) -> Sample {
    let functions = [MathFunction::Abs, MathFunction::Clamp, MathFunction::Pow, MathFunction::InsertBits];
    let (sum, time) = timed(|| {
        (0..size).fold(0, |sum, number| mixed(sum, functions[number as usize % 4].argument_count() as u64))
    });
    sample(size, sum, 0, time)
}

/// Reads the values of global expressions, half of which refer to a constant.
pub fn constant_value(size: u32) -> Sample {
    let (mut constants, mut global_expressions) = (Arena::new(), Arena::new());
    for number in 0..size / 2 {
        let init = global_expressions.append(Expression::Literal(Literal::U32(number)), span(number));
        let ty = crate::item::handle(0);
        let named = constants.append(Constant { name: None, ty, init }, span(number));
        global_expressions.append(Expression::Constant(named), span(number));
    }
    let (types, overrides) = (UniqueArena::new(), Arena::new());
    let context = GlobalCtx { types: &types, constants: &constants, overrides: &overrides, global_expressions: &global_expressions };
    let (sum, time) = timed(|| {
        let values = global_expressions.iter().filter_map(|(handle, _)| context.get_const_val::<u32, _>(handle).ok());
        values.fold(0, |sum, value| mixed(sum, value.into()))
    });
    sample(size, sum, 0, time)
}

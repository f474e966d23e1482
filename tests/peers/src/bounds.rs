//! The check that accesses are in bounds, and the pass that clamps them.
use crate::arena::HandleSet;
use crate::typifier::{ResolveContext, ResolveError, Typifier};
use crate::uses::{check_emitted, operands_mut, statement_operands_mut, Misuse};
use crate::*;

#[derive(Clone, Copy, Debug, PartialEq)]
pub enum Cause {
    NoType,
    NoLength,
    Part(u32),
    Index(Handle<Expression>),
}

#[derive(Clone, Copy, Debug, PartialEq)]
pub enum Owner {
    Function(Handle<Function>),
    EntryPoint(usize),
}

#[derive(Clone, Copy, Debug, PartialEq)]
pub struct Misfit {
    pub owner: Owner,
    pub expression: Handle<Expression>,
    pub cause: Cause,
}

#[derive(Clone, Debug, PartialEq)]
pub enum Obstacle {
    NoType(Handle<Expression>, ResolveError),
    NotEmitted(Misuse),
    NoClamp(Handle<Expression>, Cause),
}

#[derive(Clone, Copy, PartialEq)]
enum Length {
    Fixed(usize),
    Overridden(Handle<Override>),
    Counted,
}

#[derive(Clone, Copy)]
enum Position {
    Constant(u32),
    Computed(Handle<Expression>),
}

struct Accesses<'a> {
    module: &'a Module,
    expressions: &'a Arena<Expression>,
    types: Typifier,
    /// The expressions that are evaluated where they are used.
    places: HandleSet<Expression>,
}

fn length_of(inner: &TypeInner) -> Option<Length> {
    Some(match *inner {
        TypeInner::Vector { size, .. } => Length::Fixed(size as usize),
        TypeInner::Matrix { columns, .. } => Length::Fixed(columns as usize),
        TypeInner::Array { size, .. } | TypeInner::BindingArray { size, .. } => match size {
            ArraySize::Constant(count) => Length::Fixed(count.get() as usize),
            ArraySize::Pending(size) => Length::Overridden(size),
            ArraySize::Dynamic => return None,
        },
        TypeInner::Struct { ref members, .. } => Length::Fixed(members.len()),
        _ => return None,
    })
}

fn unsigned(expression: &Expression) -> Option<u32> {
    match *expression {
        Expression::Literal(Literal::U32(number)) => Some(number),
        _ => None,
    }
}

fn number(expression: &Expression) -> Option<u32> {
    match *expression {
        Expression::Literal(literal) => u32::try_from(literal).ok(),
        _ => None,
    }
}

fn constant_fits(length: Length, number: u32) -> Result<(), Cause> {
    let fits = match length {
        Length::Fixed(count) => (number as usize) < count,
        Length::Overridden(_) | Length::Counted => number == 0,
    };
    if fits { Ok(()) } else { Err(Cause::Part(number)) }
}

impl<'a> Accesses<'a> {
    fn new(module: &'a Module, function: &'a Function) -> (Self, Result<(), Obstacle>) {
        let mut types = Typifier::new();
        let grown = types
            .grow(&function.expressions, &ResolveContext::with_function(module, function))
            .map_err(|(handle, error)| Obstacle::NoType(handle, error));
        let places = HandleSet::for_arena(&function.expressions);
        let mut accesses = Self { module, expressions: &function.expressions, types, places };
        for (handle, expression) in function.expressions.iter() {
            let is_place = expression.needs_pre_emit()
                || match *expression {
                    Expression::AccessIndex { base, index } => {
                        accesses.places.contains(base)
                            && matches!(
                                accesses.length(base),
                                Ok(Length::Fixed(count)) if (index as usize) < count
                            )
                    }
                    _ => false,
                };
            if is_place {
                accesses.places.insert(handle);
            }
        }
        (accesses, grown)
    }

    fn inner(&self, handle: Handle<Expression>) -> Option<&TypeInner> {
        self.types.get(handle).map(|ty| ty.inner_with(&self.module.types))
    }

    fn length(&self, base: Handle<Expression>) -> Result<Length, Cause> {
        let length = match *self.inner(base).ok_or(Cause::NoType)? {
            TypeInner::Pointer { base, .. } => match self.module.types[base].inner {
                TypeInner::Array { size: ArraySize::Dynamic, .. } => Some(Length::Counted),
                ref inner => length_of(inner),
            },
            TypeInner::ValuePointer { size, .. } => size.map(|it| Length::Fixed(it as usize)),
            ref inner => length_of(inner),
        };
        length.ok_or(Cause::NoLength)
    }

    /// Returns why an access may be out of bounds, if it is an access and may be.
    fn check(&self, expression: &Expression) -> Result<(), Cause> {
        match *expression {
            Expression::Access { base, index } => {
                let length = self.length(base)?;
                match number(&self.expressions[index]) {
                    Some(number) => constant_fits(length, number),
                    None if self.is_clamped(length, base, index) => Ok(()),
                    None => Err(Cause::Index(index)),
                }
            }
            Expression::AccessIndex { base, index } => constant_fits(self.length(base)?, index),
            Expression::Swizzle { size, vector, pattern } => {
                let length = self.length(vector)?;
                pattern[..size as usize]
                    .iter()
                    .try_for_each(|component| constant_fits(length, *component as u32))
            }
            _ => Ok(()),
        }
    }

    /// Returns whether an index is a minimum with a number below the length.
    fn is_clamped(&self, length: Length, base: Handle<Expression>, index: Handle<Expression>) -> bool {
        let limit = match self.expressions[index] {
            Expression::Math {
                fun: MathFunction::Min, arg1: Some(limit), arg2: None, arg3: None, ..
            } => &self.expressions[limit],
            _ => return false,
        };
        if let Length::Fixed(count) = length {
            return unsigned(limit).is_some_and(|number| (number as usize) < count);
        }
        match *limit {
            Expression::Binary { op: BinaryOperator::Subtract, left, right } => {
                let is_length = match (length, &self.expressions[left]) {
                    (Length::Overridden(size), Expression::Override(it)) => size == *it,
                    (Length::Counted, Expression::ArrayLength(it)) => {
                        base == *it && self.places.contains(base)
                    }
                    _ => false,
                };
                is_length && unsigned(&self.expressions[right]) == Some(1)
            }
            _ => false,
        }
    }
}

pub fn check_bounds(module: &Module) -> Result<(), Misfit> {
    for (handle, function) in module.functions.iter() {
        check_function(module, function, Owner::Function(handle))?;
    }
    for (index, entry) in module.entry_points.iter().enumerate() {
        check_function(module, &entry.function, Owner::EntryPoint(index))?;
    }
    Ok(())
}

fn check_function(module: &Module, function: &Function, owner: Owner) -> Result<(), Misfit> {
    let (accesses, _) = Accesses::new(module, function);
    for (expression, it) in function.expressions.iter() {
        accesses.check(it).map_err(|cause| Misfit { owner, expression, cause })?;
    }
    Ok(())
}

/// An access that is clamped.
#[derive(Clone, Copy)]
struct Clamp {
    access: Handle<Expression>,
    length: Length,
    base: Handle<Expression>,
    index: Position,
    /// Whether the index is converted.
    converts: bool,
}

impl Clamp {
    fn front_count(&self) -> usize {
        let of_index = usize::from(matches!(self.index, Position::Constant(_)));
        of_index + if matches!(self.length, Length::Overridden(_)) { 2 } else { 1 }
    }

    fn inserted(&self) -> usize {
        let of_length = match self.length {
            Length::Fixed(_) => 0,
            Length::Overridden(_) => 1,
            Length::Counted => 2,
        };
        of_length + usize::from(self.converts) + 1
    }
}

/// Clamps each access that may be out of bounds.
pub fn restrict(module: &mut Module) -> Result<(), (Owner, Obstacle)> {
    for index in 0..module.functions.len() {
        let handle = module.functions.iter().nth(index).unwrap().0;
        let clamps = clamps_of(module, &module.functions[handle])
            .map_err(|it| (Owner::Function(handle), it))?;
        apply(module.functions.get_mut(handle), &clamps);
    }
    for index in 0..module.entry_points.len() {
        let clamps = clamps_of(module, &module.entry_points[index].function)
            .map_err(|it| (Owner::EntryPoint(index), it))?;
        apply(&mut module.entry_points[index].function, &clamps);
    }
    Ok(())
}

fn clamps_of(module: &Module, function: &Function) -> Result<Vec<Clamp>, Obstacle> {
    let (accesses, grown) = Accesses::new(module, function);
    grown?;
    check_emitted(function, &accesses.places).map_err(Obstacle::NotEmitted)?;
    let mut clamps = Vec::new();
    for (handle, expression) in function.expressions.iter() {
        if let Err(cause) = accesses.check(expression) {
            let clamp = accesses
                .clamp(handle, expression, cause)
                .map_err(|cause| Obstacle::NoClamp(handle, cause))?;
            clamps.push(clamp);
        }
    }
    Ok(clamps)
}

impl Accesses<'_> {
    fn clamp(
        &self,
        access: Handle<Expression>,
        expression: &Expression,
        cause: Cause,
    ) -> Result<Clamp, Cause> {
        let (base, index) = match *expression {
            Expression::Access { base, index } => (base, Position::Computed(index)),
            Expression::AccessIndex { base, index } => (base, Position::Constant(index)),
            _ => return Err(cause),
        };
        let length = self.length(base)?;
        let is_number = match index {
            Position::Constant(_) => true,
            Position::Computed(index) => number(&self.expressions[index]).is_some(),
        };
        let is_matrix = matches!(self.inner(base), Some(TypeInner::Matrix { .. }));
        if is_matrix || (is_number && matches!(length, Length::Fixed(_))) {
            return Err(cause);
        }
        let mut converts = false;
        if let Position::Computed(index) = index {
            match self.inner(index) {
                Some(&TypeInner::Scalar(Scalar::U32)) => {}
                Some(TypeInner::Scalar(Scalar { kind: ScalarKind::Sint | ScalarKind::Uint, .. })) => {
                    converts = true
                }
                _ => return Err(cause),
            }
        }
        let is_told = match length {
            Length::Fixed(count) => count <= u32::MAX as usize,
            Length::Overridden(size) => {
                let ty = self.module.overrides[size].ty;
                self.module.types[ty].inner == TypeInner::Scalar(Scalar::U32)
            }
            Length::Counted => self.places.contains(base),
        };
        if !is_told {
            return Err(Cause::NoLength);
        }
        Ok(Clamp { access, length, base, index, converts })
    }
}

fn literal(number: u32) -> Expression {
    Expression::Literal(Literal::U32(number))
}

fn apply(function: &mut Function, clamps: &[Clamp]) {
    if clamps.is_empty() {
        return;
    }
    let old = std::mem::take(&mut function.expressions);
    let front: usize = clamps.iter().map(Clamp::front_count).sum();
    // The first new handle of what is in the place of each expression, and then the length of the new arena.
    let mut starts = Vec::with_capacity(old.len() + 1);
    let mut next = front as u32;
    let mut remaining = clamps.iter().peekable();
    for (handle, _) in old.iter() {
        starts.push(next);
        next += 1;
        if let Some(clamp) = remaining.next_if(|it| it.access == handle) {
            next += clamp.inserted() as u32;
        }
    }
    starts.push(next);
    let new_of = |handle: Handle<Expression>| at(starts[handle.index() + 1] - 1);
    let rename = |handle: &mut Handle<Expression>| *handle = new_of(*handle);

    let mut new = Arena::new();
    for clamp in clamps {
        let span = old.get_span(clamp.access);
        if let Position::Constant(number) = clamp.index {
            new.append(literal(number), span);
        }
        match clamp.length {
            Length::Fixed(count) => {
                new.append(literal(count.saturating_sub(1) as u32), span);
            }
            Length::Overridden(size) => {
                new.append(literal(1), span);
                new.append(Expression::Override(size), span);
            }
            Length::Counted => {
                new.append(literal(1), span);
            }
        }
    }
    let mut at_front = 0;
    let mut remaining = clamps.iter().peekable();
    let mut old = old;
    for (handle, mut expression, span) in old.drain() {
        match remaining.next_if(|it| it.access == handle) {
            Some(clamp) => {
                push_clamped(&mut new, clamp, at_front, span, new_of);
                at_front += clamp.front_count() as u32;
            }
            None => {
                operands_mut(&mut expression, rename);
                new.append(expression, span);
            }
        }
    }
    function.expressions = new;
    let mut names = NamedExpressions::default();
    for (handle, name) in function.named_expressions.drain() {
        names.insert(new_of(handle), name);
    }
    function.named_expressions = names;
    for (_, variable) in function.local_variables.iter_mut() {
        variable.init.iter_mut().for_each(rename);
    }
    rename_block(&mut function.body, &starts);
}

fn at(index: u32) -> Handle<Expression> {
    Handle::new(non_max_u32::NonMaxU32::new(index).unwrap())
}

fn push_clamped(
    new: &mut Arena<Expression>,
    clamp: &Clamp,
    at_front: u32,
    span: Span,
    new_of: impl Fn(Handle<Expression>) -> Handle<Expression>,
) {
    let first = at_front + u32::from(matches!(clamp.index, Position::Constant(_)));
    let subtract = |left| Expression::Binary { op: BinaryOperator::Subtract, left, right: at(first) };
    let limit = match clamp.length {
        Length::Fixed(_) => at(first),
        Length::Overridden(_) => new.append(subtract(at(first + 1)), span),
        Length::Counted => {
            let length = new.append(Expression::ArrayLength(new_of(clamp.base)), span);
            new.append(subtract(length), span)
        }
    };
    let index = match clamp.index {
        Position::Constant(_) => at(at_front),
        Position::Computed(index) if clamp.converts => {
            let converted = Expression::As {
                expr: new_of(index),
                kind: ScalarKind::Uint,
                convert: Some(4),
            };
            new.append(converted, span)
        }
        Position::Computed(index) => new_of(index),
    };
    let minimum = Expression::Math {
        fun: MathFunction::Min,
        arg: index,
        arg1: Some(limit),
        arg2: None,
        arg3: None,
    };
    let index = new.append(minimum, span);
    new.append(Expression::Access { base: new_of(clamp.base), index }, span);
}

fn rename_block(block: &mut Block, starts: &[u32]) {
    for statement in block.iter_mut() {
        statement_operands_mut(statement, |handle| *handle = at(starts[handle.index() + 1] - 1));
        match statement {
            Statement::Emit(range) => {
                let bounds = range.index_range();
                let first = starts[bounds.start as usize];
                let past = starts[bounds.end as usize];
                if first < past {
                    *range = Range::new_from_bounds(at(first), at(past - 1));
                }
            }
            Statement::Block(block) => rename_block(block, starts),
            Statement::If { accept, reject, .. } => {
                rename_block(accept, starts);
                rename_block(reject, starts);
            }
            Statement::Switch { cases, .. } => {
                cases.iter_mut().for_each(|case| rename_block(&mut case.body, starts));
            }
            Statement::Loop { body, continuing, .. } => {
                rename_block(body, starts);
                rename_block(continuing, starts);
            }
            _ => {}
        }
    }
}

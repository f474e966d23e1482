//! The check that each expression is evaluated before it is used, and once in its scope.
use crate::arena::HandleSet;
use crate::*;

type Operand = Handle<Expression>;

/// Calls a function for each operand of an expression, until it fails.
pub fn try_operands<E>(
    expression: &Expression,
    mut f: impl FnMut(Operand) -> Result<(), E>,
) -> Result<(), E> {
    use Expression as Ex;
    match *expression {
        Ex::Literal(_)
        | Ex::Constant(_)
        | Ex::Override(_)
        | Ex::ZeroValue(_)
        | Ex::FunctionArgument(_)
        | Ex::GlobalVariable(_)
        | Ex::LocalVariable(_)
        | Ex::CallResult(_)
        | Ex::AtomicResult { .. }
        | Ex::WorkGroupUniformLoadResult { .. }
        | Ex::RayQueryProceedResult
        | Ex::SubgroupBallotResult
        | Ex::SubgroupOperationResult { .. } => Ok(()),
        Ex::Compose { ref components, .. } => components.iter().copied().try_for_each(f),
        Ex::Access { base, index } => {
            f(base)?;
            f(index)
        }
        Ex::AccessIndex { base, .. } => f(base),
        Ex::Splat { value, .. } => f(value),
        Ex::Swizzle { vector, .. } => f(vector),
        Ex::Load { pointer } => f(pointer),
        Ex::ImageSample { image, sampler, coordinate, array_index, offset, level, depth_ref, .. } => {
            f(image)?;
            f(sampler)?;
            f(coordinate)?;
            array_index.map_or(Ok(()), &mut f)?;
            offset.map_or(Ok(()), &mut f)?;
            match level {
                SampleLevel::Auto | SampleLevel::Zero => {}
                SampleLevel::Exact(it) | SampleLevel::Bias(it) => f(it)?,
                SampleLevel::Gradient { x, y } => {
                    f(x)?;
                    f(y)?;
                }
            }
            depth_ref.map_or(Ok(()), f)
        }
        Ex::ImageLoad { image, coordinate, array_index, sample, level } => {
            f(image)?;
            f(coordinate)?;
            array_index.map_or(Ok(()), &mut f)?;
            sample.map_or(Ok(()), &mut f)?;
            level.map_or(Ok(()), f)
        }
        Ex::ImageQuery { image, query } => {
            f(image)?;
            match query {
                ImageQuery::Size { level: Some(level) } => f(level),
                _ => Ok(()),
            }
        }
        Ex::Unary { expr, .. } | Ex::Derivative { expr, .. } | Ex::As { expr, .. } => f(expr),
        Ex::Binary { left, right, .. } => {
            f(left)?;
            f(right)
        }
        Ex::Select { condition, accept, reject } => {
            f(condition)?;
            f(accept)?;
            f(reject)
        }
        Ex::Relational { argument, .. } => f(argument),
        Ex::Math { arg, arg1, arg2, arg3, .. } => {
            f(arg)?;
            arg1.map_or(Ok(()), &mut f)?;
            arg2.map_or(Ok(()), &mut f)?;
            arg3.map_or(Ok(()), f)
        }
        Ex::ArrayLength(array) => f(array),
        Ex::RayQueryVertexPositions { query, .. } | Ex::RayQueryGetIntersection { query, .. } => {
            f(query)
        }
        Ex::CooperativeLoad { ref data, .. } => {
            f(data.pointer)?;
            f(data.stride)
        }
        Ex::CooperativeMultiplyAdd { a, b, c } => {
            f(a)?;
            f(b)?;
            f(c)
        }
    }
}

/// Calls a function for each operand of an expression.
pub fn operands_mut(expression: &mut Expression, mut f: impl FnMut(&mut Operand)) {
    use Expression as Ex;
    match expression {
        Ex::Literal(_)
        | Ex::Constant(_)
        | Ex::Override(_)
        | Ex::ZeroValue(_)
        | Ex::FunctionArgument(_)
        | Ex::GlobalVariable(_)
        | Ex::LocalVariable(_)
        | Ex::CallResult(_)
        | Ex::AtomicResult { .. }
        | Ex::WorkGroupUniformLoadResult { .. }
        | Ex::RayQueryProceedResult
        | Ex::SubgroupBallotResult
        | Ex::SubgroupOperationResult { .. } => {}
        Ex::Compose { components, .. } => components.iter_mut().for_each(f),
        Ex::Access { base, index } => {
            f(base);
            f(index);
        }
        Ex::AccessIndex { base, .. } => f(base),
        Ex::Splat { value, .. } => f(value),
        Ex::Swizzle { vector, .. } => f(vector),
        Ex::Load { pointer } => f(pointer),
        Ex::ImageSample { image, sampler, coordinate, array_index, offset, level, depth_ref, .. } => {
            f(image);
            f(sampler);
            f(coordinate);
            array_index.iter_mut().for_each(&mut f);
            offset.iter_mut().for_each(&mut f);
            match level {
                SampleLevel::Auto | SampleLevel::Zero => {}
                SampleLevel::Exact(it) | SampleLevel::Bias(it) => f(it),
                SampleLevel::Gradient { x, y } => {
                    f(x);
                    f(y);
                }
            }
            depth_ref.iter_mut().for_each(f);
        }
        Ex::ImageLoad { image, coordinate, array_index, sample, level } => {
            f(image);
            f(coordinate);
            array_index.iter_mut().for_each(&mut f);
            sample.iter_mut().for_each(&mut f);
            level.iter_mut().for_each(f);
        }
        Ex::ImageQuery { image, query } => {
            f(image);
            if let ImageQuery::Size { level: Some(level) } = query {
                f(level);
            }
        }
        Ex::Unary { expr, .. } | Ex::Derivative { expr, .. } | Ex::As { expr, .. } => f(expr),
        Ex::Binary { left, right, .. } => {
            f(left);
            f(right);
        }
        Ex::Select { condition, accept, reject } => {
            f(condition);
            f(accept);
            f(reject);
        }
        Ex::Relational { argument, .. } => f(argument),
        Ex::Math { arg, arg1, arg2, arg3, .. } => {
            f(arg);
            arg1.iter_mut().for_each(&mut f);
            arg2.iter_mut().for_each(&mut f);
            arg3.iter_mut().for_each(f);
        }
        Ex::ArrayLength(array) => f(array),
        Ex::RayQueryVertexPositions { query, .. } | Ex::RayQueryGetIntersection { query, .. } => {
            f(query)
        }
        Ex::CooperativeLoad { data, .. } => {
            f(&mut data.pointer);
            f(&mut data.stride);
        }
        Ex::CooperativeMultiplyAdd { a, b, c } => {
            f(a);
            f(b);
            f(c);
        }
    }
}

/// Calls a function for each operand of a statement, without those of the statements inside it.
pub fn statement_operands_mut(statement: &mut Statement, mut f: impl FnMut(&mut Operand)) {
    use Statement as St;
    match statement {
        St::Emit(_)
        | St::Block(_)
        | St::Break
        | St::Continue
        | St::Kill
        | St::ControlBarrier(_)
        | St::MemoryBarrier(_) => {}
        St::If { condition, .. } => f(condition),
        St::Switch { selector, .. } => f(selector),
        St::Loop { break_if, .. } => break_if.iter_mut().for_each(f),
        St::Return { value } => value.iter_mut().for_each(f),
        St::Store { pointer, value } => {
            f(pointer);
            f(value);
        }
        St::ImageStore { image, coordinate, array_index, value } => {
            f(image);
            f(coordinate);
            array_index.iter_mut().for_each(&mut f);
            f(value);
        }
        St::Atomic { pointer, fun, value, result } => {
            f(pointer);
            if let AtomicFunction::Exchange { compare: Some(compare) } = fun {
                f(compare);
            }
            f(value);
            result.iter_mut().for_each(f);
        }
        St::ImageAtomic { image, coordinate, array_index, fun, value } => {
            f(image);
            f(coordinate);
            array_index.iter_mut().for_each(&mut f);
            if let AtomicFunction::Exchange { compare: Some(compare) } = fun {
                f(compare);
            }
            f(value);
        }
        St::WorkGroupUniformLoad { pointer, result } => {
            f(pointer);
            f(result);
        }
        St::Call { arguments, result, .. } => {
            arguments.iter_mut().for_each(&mut f);
            result.iter_mut().for_each(f);
        }
        St::RayQuery { query, fun } => {
            f(query);
            match fun {
                RayQueryFunction::Initialize { acceleration_structure, descriptor } => {
                    f(acceleration_structure);
                    f(descriptor);
                }
                RayQueryFunction::Proceed { result } => f(result),
                RayQueryFunction::GenerateIntersection { hit_t } => f(hit_t),
                RayQueryFunction::ConfirmIntersection | RayQueryFunction::Terminate => {}
            }
        }
        St::RayPipelineFunction(RayPipelineFunction::TraceRay {
            acceleration_structure,
            descriptor,
            payload,
        }) => {
            f(acceleration_structure);
            f(descriptor);
            f(payload);
        }
        St::SubgroupBallot { result, predicate } => {
            f(result);
            predicate.iter_mut().for_each(f);
        }
        St::SubgroupGather { mode, argument, result } => {
            match mode {
                GatherMode::Broadcast(it)
                | GatherMode::Shuffle(it)
                | GatherMode::ShuffleDown(it)
                | GatherMode::ShuffleUp(it)
                | GatherMode::ShuffleXor(it)
                | GatherMode::QuadBroadcast(it) => f(it),
                GatherMode::BroadcastFirst | GatherMode::QuadSwap(_) => {}
            }
            f(argument);
            f(result);
        }
        St::SubgroupCollectiveOperation { argument, result, .. } => {
            f(argument);
            f(result);
        }
        St::CooperativeStore { target, data } => {
            f(target);
            f(&mut data.pointer);
            f(&mut data.stride);
        }
    }
}

/// Calls a function for each operand of a plain statement except for its result, until it fails. Returns the result.
fn try_statement_operands<E>(
    statement: &Statement,
    mut f: impl FnMut(Operand) -> Result<(), E>,
) -> Result<Option<Operand>, E> {
    use Statement as St;
    match *statement {
        St::Store { pointer, value } => {
            f(pointer)?;
            f(value)?;
            Ok(None)
        }
        St::ImageStore { image, coordinate, array_index, value } => {
            f(image)?;
            f(coordinate)?;
            array_index.map_or(Ok(()), &mut f)?;
            f(value)?;
            Ok(None)
        }
        St::Atomic { pointer, fun, value, result } => {
            f(pointer)?;
            if let AtomicFunction::Exchange { compare: Some(compare) } = fun {
                f(compare)?;
            }
            f(value)?;
            Ok(result)
        }
        St::ImageAtomic { image, coordinate, array_index, fun, value } => {
            f(image)?;
            f(coordinate)?;
            array_index.map_or(Ok(()), &mut f)?;
            if let AtomicFunction::Exchange { compare: Some(compare) } = fun {
                f(compare)?;
            }
            f(value)?;
            Ok(None)
        }
        St::WorkGroupUniformLoad { pointer, result } => {
            f(pointer)?;
            Ok(Some(result))
        }
        St::Call { ref arguments, result, .. } => {
            arguments.iter().copied().try_for_each(f)?;
            Ok(result)
        }
        St::RayQuery { query, ref fun } => {
            f(query)?;
            match *fun {
                RayQueryFunction::Initialize { acceleration_structure, descriptor } => {
                    f(acceleration_structure)?;
                    f(descriptor)?;
                    Ok(None)
                }
                RayQueryFunction::Proceed { result } => Ok(Some(result)),
                RayQueryFunction::GenerateIntersection { hit_t } => f(hit_t).map(|()| None),
                RayQueryFunction::ConfirmIntersection | RayQueryFunction::Terminate => Ok(None),
            }
        }
        St::RayPipelineFunction(RayPipelineFunction::TraceRay {
            acceleration_structure,
            descriptor,
            payload,
        }) => {
            f(acceleration_structure)?;
            f(descriptor)?;
            f(payload)?;
            Ok(None)
        }
        St::SubgroupBallot { result, predicate } => {
            predicate.map_or(Ok(()), f)?;
            Ok(Some(result))
        }
        St::SubgroupGather { mode, argument, result } => {
            match mode {
                GatherMode::Broadcast(it)
                | GatherMode::Shuffle(it)
                | GatherMode::ShuffleDown(it)
                | GatherMode::ShuffleUp(it)
                | GatherMode::ShuffleXor(it)
                | GatherMode::QuadBroadcast(it) => f(it)?,
                GatherMode::BroadcastFirst | GatherMode::QuadSwap(_) => {}
            }
            f(argument)?;
            Ok(Some(result))
        }
        St::SubgroupCollectiveOperation { argument, result, .. } => {
            f(argument)?;
            Ok(Some(result))
        }
        St::CooperativeStore { target, ref data } => {
            f(target)?;
            f(data.pointer)?;
            f(data.stride)?;
            Ok(None)
        }
        _ => Ok(None),
    }
}

#[derive(Clone, Copy, PartialEq)]
enum State {
    Outside,
    Known,
    Doubtful,
}

#[derive(Clone, Copy, Debug, PartialEq)]
pub enum Cause {
    NotEvaluated,
    NotEvaluatedBySuch,
    EvaluatedAgain,
}

#[derive(Clone, Copy, Debug, PartialEq)]
pub struct Misuse {
    pub statement: u64,
    pub span: Span,
    pub expression: Handle<Expression>,
    pub cause: Cause,
}

/// The ways in which control can leave a block.
#[derive(Clone, Copy)]
struct Ways {
    falls_off: bool,
    breaks: bool,
    continues: bool,
}

impl Ways {
    const OFF: Self = Self { falls_off: true, breaks: false, continues: false };
    const NONE: Self = Self { falls_off: false, breaks: false, continues: false };

    fn either(self, other: Self) -> Self {
        Self {
            falls_off: self.falls_off || other.falls_off,
            breaks: self.breaks || other.breaks,
            continues: self.continues || other.continues,
        }
    }
}

struct Checker<'a> {
    expressions: &'a Arena<Expression>,
    at_use: &'a HandleSet<Expression>,
    states: Vec<State>,
    scope: Vec<Handle<Expression>>,
    number: u64,
    is_reached: bool,
}

/// Checks a function. The expressions of `at_use` are evaluated where they are used.
pub fn check_emitted(function: &Function, at_use: &HandleSet<Expression>) -> Result<(), Misuse> {
    let mut checker = Checker {
        expressions: &function.expressions,
        at_use,
        states: vec![State::Outside; function.expressions.len()],
        scope: Vec::new(),
        number: 0,
        is_reached: true,
    };
    checker.block(&function.body).map(|_| ())
}

impl Checker<'_> {
    fn misuse(&self, expression: Handle<Expression>, span: Span, cause: Cause) -> Misuse {
        Misuse { statement: self.number, span, expression, cause }
    }

    fn uses(&self, handle: Handle<Expression>, span: Span) -> Result<(), Misuse> {
        if !self.is_reached
            || self.at_use.contains(handle)
            || self.states[handle.index()] == State::Known
            || self.expressions[handle].needs_pre_emit()
        {
            Ok(())
        } else {
            Err(self.misuse(handle, span, Cause::NotEvaluated))
        }
    }

    fn learn(&mut self, handle: Handle<Expression>, span: Span) -> Result<(), Misuse> {
        let state = &mut self.states[handle.index()];
        if *state != State::Outside {
            return Err(self.misuse(handle, span, Cause::EvaluatedAgain));
        }
        *state = State::Known;
        self.scope.push(handle);
        Ok(())
    }

    fn forget(&mut self, len: usize) {
        for handle in self.scope.drain(len..) {
            self.states[handle.index()] = State::Outside;
        }
    }

    fn doubt(&mut self, len: usize) {
        for handle in &self.scope[len..] {
            self.states[handle.index()] = State::Doubtful;
        }
    }

    /// Checks a block. Returns how control leaves it, and how many expressions are in scope that are evaluated for certain.
    fn block(&mut self, block: &Block) -> Result<(Ways, usize), Misuse> {
        let mut ways = Ways::OFF;
        let mut certain = self.scope.len();
        let mut is_certain = true;
        for (statement, span) in block.span_iter() {
            let last = self.statement(statement, *span)?;
            is_certain = is_certain && ways.falls_off && !ways.continues && !last.continues;
            if is_certain {
                certain = self.scope.len();
            }
            if ways.falls_off {
                ways = Ways { falls_off: last.falls_off, ..ways.either(last) };
            }
        }
        Ok((ways, certain))
    }

    fn inner(&mut self, block: &Block) -> Result<Ways, Misuse> {
        let len = self.scope.len();
        let (ways, _) = self.block(block)?;
        self.forget(len);
        Ok(ways)
    }

    fn statement(&mut self, statement: &Statement, span: Span) -> Result<Ways, Misuse> {
        match *statement {
            Statement::Emit(ref range) => {
                for handle in range.clone() {
                    self.emit(handle, span)?;
                }
                self.number += 1;
                Ok(Ways::OFF)
            }
            Statement::Block(ref block) => {
                self.number += 1;
                self.inner(block)
            }
            Statement::If { condition, ref accept, ref reject } => {
                self.uses(condition, span)?;
                self.number += 1;
                Ok(self.inner(accept)?.either(self.inner(reject)?))
            }
            Statement::Switch { selector, ref cases } => {
                self.uses(selector, span)?;
                self.number += 1;
                self.cases(cases)
            }
            Statement::Loop { ref body, ref continuing, break_if } => {
                self.repeated(body, continuing, break_if, span)
            }
            Statement::Break => {
                self.number += 1;
                Ok(Ways { breaks: true, ..Ways::NONE })
            }
            Statement::Continue => {
                self.number += 1;
                Ok(Ways { continues: true, ..Ways::NONE })
            }
            Statement::Return { value } => {
                if let Some(value) = value {
                    self.uses(value, span)?;
                }
                self.number += 1;
                Ok(Ways::NONE)
            }
            Statement::Kill => {
                self.number += 1;
                Ok(Ways::NONE)
            }
            _ => {
                let result = try_statement_operands(statement, |it| self.uses(it, span))?;
                if let Some(result) = result {
                    if !is_result(statement, &self.expressions[result]) {
                        return Err(self.misuse(result, span, Cause::NotEvaluatedBySuch));
                    }
                    self.learn(result, span)?;
                }
                self.number += 1;
                Ok(Ways::OFF)
            }
        }
    }

    fn emit(&mut self, handle: Handle<Expression>, span: Span) -> Result<(), Misuse> {
        let expression = match self.expressions.try_get(handle) {
            Ok(expression) if is_emitted(expression) => expression,
            _ => return Err(self.misuse(handle, span, Cause::NotEvaluatedBySuch)),
        };
        try_operands(expression, |it| self.uses(it, span))?;
        self.learn(handle, span)
    }

    fn cases(&mut self, cases: &[SwitchCase]) -> Result<Ways, Misuse> {
        let has_default = cases.iter().any(|case| case.value == SwitchValue::Default);
        let falls = cases.last().is_some_and(|case| case.fall_through);
        let mut ways = if has_default && !falls { Ways::NONE } else { Ways::OFF };
        for case in cases {
            let body = self.inner(&case.body)?;
            ways = ways.either(Ways {
                falls_off: body.breaks || (!case.fall_through && body.falls_off),
                breaks: false,
                continues: body.continues,
            });
        }
        Ok(ways)
    }

    fn repeated(
        &mut self,
        body: &Block,
        continuing: &Block,
        break_if: Option<Handle<Expression>>,
        span: Span,
    ) -> Result<Ways, Misuse> {
        let number = self.number;
        let len = self.scope.len();
        self.number += 1;
        let (ways, certain) = self.block(body)?;
        self.doubt(certain);
        let was_reached = self.is_reached;
        self.is_reached = was_reached && (ways.falls_off || ways.continues);
        let (_, certain) = self.block(continuing)?;
        self.doubt(certain);
        if let Some(condition) = break_if {
            let next = std::mem::replace(&mut self.number, number);
            self.uses(condition, span)?;
            self.number = next;
        }
        self.is_reached = was_reached;
        self.forget(len);
        Ok(Ways::OFF)
    }
}

fn is_emitted(expression: &Expression) -> bool {
    !expression.needs_pre_emit()
        && !matches!(
            expression,
            Expression::CallResult(_)
                | Expression::AtomicResult { .. }
                | Expression::WorkGroupUniformLoadResult { .. }
                | Expression::RayQueryProceedResult
                | Expression::SubgroupBallotResult
                | Expression::SubgroupOperationResult { .. }
        )
}

fn is_result(statement: &Statement, expression: &Expression) -> bool {
    use {Expression as Ex, Statement as St};
    match (statement, expression) {
        (St::Atomic { .. }, Ex::AtomicResult { .. })
        | (St::WorkGroupUniformLoad { .. }, Ex::WorkGroupUniformLoadResult { .. })
        | (St::RayQuery { .. }, Ex::RayQueryProceedResult)
        | (St::SubgroupBallot { .. }, Ex::SubgroupBallotResult)
        | (
            St::SubgroupGather { .. } | St::SubgroupCollectiveOperation { .. },
            Ex::SubgroupOperationResult { .. },
        ) => true,
        (St::Call { function, .. }, Ex::CallResult(called)) => function == called,
        _ => false,
    }
}

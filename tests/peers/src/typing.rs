//! The check that a module uses each value at its type.
use crate::typifier::{scalar_of, sized, ResolveContext, ResolveError, TypeResolution, Typifier};
use crate::*;

/// What is required and not met.
#[derive(Clone, Copy, Debug, PartialEq)]
pub enum Mismatch {
    /// An operand is not what is required of it, in words.
    Operand(Handle<Expression>, &'static str),
    Arguments(Handle<Function>),
    Result,
    MathArguments(MathFunction),
}

#[derive(Clone, Debug, PartialEq)]
pub enum Fault {
    NoType(Handle<Expression>, ResolveError),
    Expression(Handle<Expression>, Mismatch),
    Constant(Handle<Constant>),
    Override(Handle<Override>),
    GlobalVariable(Handle<GlobalVariable>),
    LocalVariable(Handle<LocalVariable>),
    Statement(u64, Span, Mismatch),
}

#[derive(Clone, Debug, PartialEq)]
pub enum InvalidTypes {
    Declaration(Fault),
    Function(Handle<Function>, Fault),
    EntryPoint(usize, Fault),
}

pub fn check_types(module: &Module) -> Result<(), InvalidTypes> {
    check_declarations(module).map_err(InvalidTypes::Declaration)?;
    for (handle, function) in module.functions.iter() {
        check_function(module, function).map_err(|fault| InvalidTypes::Function(handle, fault))?;
    }
    for (index, entry) in module.entry_points.iter().enumerate() {
        check_function(module, &entry.function)
            .map_err(|fault| InvalidTypes::EntryPoint(index, fault))?;
    }
    Ok(())
}

fn check_declarations(module: &Module) -> Result<(), Fault> {
    let function = Function::default();
    let mut types = Typifier::new();
    types
        .grow(&module.global_expressions, &ResolveContext::with_function(module, &function))
        .map_err(|(handle, error)| Fault::NoType(handle, error))?;
    let checker = Checker { module, function: &function, types: &types };
    checker.expressions(&module.global_expressions)?;
    for (handle, constant) in module.constants.iter() {
        if !checker.is_declared(constant.init, constant.ty) {
            return Err(Fault::Constant(handle));
        }
    }
    for (handle, it) in module.overrides.iter() {
        if it.init.is_some_and(|init| !checker.is_declared(init, it.ty)) {
            return Err(Fault::Override(handle));
        }
    }
    for (handle, it) in module.global_variables.iter() {
        if it.init.is_some_and(|init| !checker.is_declared(init, it.ty)) {
            return Err(Fault::GlobalVariable(handle));
        }
    }
    Ok(())
}

fn check_function(module: &Module, function: &Function) -> Result<(), Fault> {
    let mut types = Typifier::new();
    types
        .grow(&function.expressions, &ResolveContext::with_function(module, function))
        .map_err(|(handle, error)| Fault::NoType(handle, error))?;
    let checker = Checker { module, function, types: &types };
    checker.expressions(&function.expressions)?;
    for (handle, it) in function.local_variables.iter() {
        if it.init.is_some_and(|init| !checker.is_declared(init, it.ty)) {
            return Err(Fault::LocalVariable(handle));
        }
    }
    checker.block(&function.body, &mut 0)
}

/// Returns a pointer to a declared scalar or vector as a pointer to a value.
fn canonical(types: &UniqueArena<Type>, inner: &TypeInner) -> Option<TypeInner> {
    match *inner {
        TypeInner::Pointer { base, space } => match types[base].inner {
            TypeInner::Scalar(scalar) => {
                Some(TypeInner::ValuePointer { size: None, scalar, space })
            }
            TypeInner::Vector { size, scalar } => {
                Some(TypeInner::ValuePointer { size: Some(size), scalar, space })
            }
            _ => None,
        },
        _ => None,
    }
}

/// Returns whether two types are the same: structures by handle, others by their contents.
fn is_same_type(types: &UniqueArena<Type>, first: &TypeResolution, second: &TypeResolution) -> bool {
    let left = first.inner_with(types);
    let right = second.inner_with(types);
    if matches!(left, TypeInner::Struct { .. }) || matches!(right, TypeInner::Struct { .. }) {
        return match (first, second) {
            (TypeResolution::Handle(first), TypeResolution::Handle(second)) => first == second,
            _ => false,
        };
    }
    let left_pointer = canonical(types, left);
    let right_pointer = canonical(types, right);
    left_pointer.as_ref().unwrap_or(left) == right_pointer.as_ref().unwrap_or(right)
}

type Operand = Handle<Expression>;
type Judged = Result<(), Mismatch>;

fn is_number(scalar: Scalar) -> bool {
    scalar.kind != ScalarKind::Bool
}

fn is_signed(scalar: Scalar) -> bool {
    !matches!(scalar.kind, ScalarKind::Bool | ScalarKind::Uint)
}

fn is_float(scalar: Scalar) -> bool {
    matches!(scalar.kind, ScalarKind::Float | ScalarKind::AbstractFloat)
}

fn is_float32(scalar: Scalar) -> bool {
    scalar == Scalar::F32
}

fn is_integer(scalar: Scalar) -> bool {
    matches!(scalar.kind, ScalarKind::Sint | ScalarKind::Uint)
}

fn is_boolean(scalar: Scalar) -> bool {
    scalar.kind == ScalarKind::Bool
}

struct Checker<'a> {
    module: &'a Module,
    function: &'a Function,
    types: &'a Typifier,
}

impl Checker<'_> {
    fn expressions(&self, expressions: &Arena<Expression>) -> Result<(), Fault> {
        for (handle, expression) in expressions.iter() {
            self.expression(expression).map_err(|it| Fault::Expression(handle, it))?;
        }
        Ok(())
    }

    fn block(&self, block: &Block, number: &mut u64) -> Result<(), Fault> {
        for (statement, span) in block.span_iter() {
            self.statement(statement).map_err(|it| Fault::Statement(*number, *span, it))?;
            *number += 1;
            match statement {
                Statement::Block(block) => self.block(block, number)?,
                Statement::If { accept, reject, .. } => {
                    self.block(accept, number)?;
                    self.block(reject, number)?;
                }
                Statement::Switch { cases, .. } => {
                    for case in cases {
                        self.block(&case.body, number)?;
                    }
                }
                Statement::Loop { body, continuing, .. } => {
                    self.block(body, number)?;
                    self.block(continuing, number)?;
                }
                _ => {}
            }
        }
        Ok(())
    }

    fn inner(&self, operand: Operand) -> Option<&TypeInner> {
        self.types.get(operand).map(|ty| ty.inner_with(&self.module.types))
    }

    fn has(&self, operand: Operand, ty: &TypeResolution) -> bool {
        self.types.get(operand).is_some_and(|it| is_same_type(&self.module.types, it, ty))
    }

    fn is_declared(&self, operand: Operand, ty: Handle<Type>) -> bool {
        self.has(operand, &TypeResolution::Handle(ty))
    }

    fn is_same(&self, operand: Operand, other: Operand) -> bool {
        self.types.get(other).is_some_and(|ty| self.has(operand, ty))
    }

    fn is_sized(&self, operand: Operand, size: Option<VectorSize>, scalar: Scalar) -> bool {
        self.inner(operand).is_some_and(|it| *it == sized(size, scalar))
    }

    fn is_scalar(&self, operand: Operand, scalar: Scalar) -> bool {
        self.is_sized(operand, None, scalar)
    }

    fn is_index(&self, operand: Operand, size: Option<VectorSize>) -> bool {
        self.is_sized(operand, size, Scalar::I32) || self.is_sized(operand, size, Scalar::U32)
    }

    fn needs(&self, is_met: bool, operand: Operand, what: &'static str) -> Judged {
        if is_met { Ok(()) } else { Err(Mismatch::Operand(operand, what)) }
    }

    fn components(&self, operand: Operand, is: fn(Scalar) -> bool, what: &'static str) -> Judged {
        let is_met = match self.inner(operand) {
            Some(TypeInner::Scalar(scalar) | TypeInner::Vector { scalar, .. }) => is(*scalar),
            _ => false,
        };
        self.needs(is_met, operand, what)
    }

    fn entries(&self, operand: Operand, is: fn(Scalar) -> bool, what: &'static str) -> Judged {
        self.needs(self.entry(operand).is_some_and(is), operand, what)
    }

    fn entry(&self, operand: Operand) -> Option<Scalar> {
        self.inner(operand).and_then(scalar_of)
    }

    fn integer(&self, operand: Option<Operand>) -> Judged {
        match operand {
            Some(operand) => self.needs(self.is_index(operand, None), operand, "an integer"),
            None => Ok(()),
        }
    }

    fn same(&self, operand: Operand, other: Operand) -> Judged {
        self.needs(self.is_same(operand, other), operand, "the type of another operand")
    }

    /// Requires a scalar, or as many of it as another operand has components.
    fn along(&self, operand: Operand, other: Operand, scalar: Scalar) -> Judged {
        let is_met = match self.inner(other) {
            Some(TypeInner::Vector { size, .. }) => self.is_sized(operand, Some(*size), scalar),
            Some(_) => self.is_scalar(operand, scalar),
            None => false,
        };
        self.needs(is_met, operand, "a value for each component")
    }

    fn image(&self, image: Operand) -> Option<(ImageDimension, bool, ImageClass)> {
        match self.inner(image) {
            Some(&TypeInner::Image { dim, arrayed, class }) => Some((dim, arrayed, class)),
            _ => None,
        }
    }

    fn coordinate_size(&self, image: Operand) -> Option<Option<VectorSize>> {
        self.image(image).map(|(dim, ..)| match dim {
            ImageDimension::D1 => None,
            ImageDimension::D2 => Some(VectorSize::Bi),
            ImageDimension::D3 | ImageDimension::Cube => Some(VectorSize::Tri),
        })
    }

    fn position(&self, operand: Operand, image: Operand, scalar: Scalar) -> Judged {
        let size = self.coordinate_size(image);
        let is_met = size.is_some_and(|size| self.is_sized(operand, size, scalar));
        self.needs(is_met, operand, "a position in the image")
    }

    fn coordinate(&self, operand: Operand, image: Operand) -> Judged {
        let is_met = self.coordinate_size(image).is_some_and(|it| self.is_index(operand, it));
        self.needs(is_met, operand, "a coordinate of the image")
    }

    fn layers(&self, image: Operand, has_index: bool) -> Judged {
        let is_met = self.image(image).is_some_and(|(_, arrayed, _)| arrayed == has_index);
        self.needs(is_met, image, "layers where an index is given")
    }

    fn samples(&self, image: Operand, has_index: bool) -> Judged {
        let is_met = self.image(image).is_some_and(|(_, _, class)| {
            let multi = match class {
                ImageClass::Sampled { multi, .. } | ImageClass::Depth { multi } => multi,
                _ => false,
            };
            multi == has_index
        });
        self.needs(is_met, image, "samples where an index is given")
    }

    fn levels(&self, image: Operand, has_level: bool) -> Judged {
        let is_met = self.image(image).is_some_and(|(_, _, class)| {
            let mipmapped = match class {
                ImageClass::Sampled { multi, .. } | ImageClass::Depth { multi } => !multi,
                _ => false,
            };
            mipmapped == has_level
        });
        self.needs(is_met, image, "levels where one is given")
    }

    fn behind(&self, pointer: Operand) -> Option<&TypeInner> {
        match self.inner(pointer) {
            Some(TypeInner::Pointer { base, .. }) => Some(&self.module.types[*base].inner),
            _ => None,
        }
    }

    fn loaded(&self, pointer: Operand) -> Option<TypeResolution> {
        match *self.inner(pointer)? {
            TypeInner::Pointer { base, .. } => Some(match self.module.types[base].inner {
                TypeInner::Atomic(scalar) => TypeResolution::Value(TypeInner::Scalar(scalar)),
                _ => TypeResolution::Handle(base),
            }),
            TypeInner::ValuePointer { size, scalar, .. } => {
                Some(TypeResolution::Value(sized(size, scalar)))
            }
            _ => None,
        }
    }

    fn ray_query(&self, query: Operand) -> Judged {
        let is_met = matches!(self.behind(query), Some(TypeInner::RayQuery { .. }));
        self.needs(is_met, query, "a pointer to a ray query")
    }

    fn cooperative(&self, operand: Operand) -> Judged {
        let is_met = matches!(self.inner(operand), Some(TypeInner::CooperativeMatrix { .. }));
        self.needs(is_met, operand, "a cooperative matrix")
    }

    fn expression(&self, expression: &Expression) -> Judged {
        match *expression {
            Expression::Access { index, .. } => {
                let is_met =
                    matches!(self.inner(index), Some(TypeInner::Scalar(scalar)) if is_integer(*scalar));
                self.needs(is_met, index, "an integer")
            }
            Expression::ImageSample {
                image, sampler, coordinate, array_index, offset, level, depth_ref, ..
            } => self.sample(image, sampler, coordinate, array_index, offset, level, depth_ref),
            Expression::ImageLoad { image, coordinate, array_index, sample, level } => {
                self.coordinate(coordinate, image)?;
                self.layers(image, array_index.is_some())?;
                self.integer(array_index)?;
                self.samples(image, sample.is_some())?;
                self.integer(sample)?;
                self.levels(image, level.is_some())?;
                self.integer(level)
            }
            Expression::ImageQuery { image, query } => match query {
                ImageQuery::Size { level: Some(level) } => {
                    self.levels(image, true)?;
                    self.integer(Some(level))
                }
                ImageQuery::Size { level: None } => Ok(()),
                ImageQuery::NumLevels => self.levels(image, true),
                ImageQuery::NumLayers => self.layers(image, true),
                ImageQuery::NumSamples => self.samples(image, true),
            },
            Expression::Unary { op, expr } => match op {
                UnaryOperator::Negate => self.components(expr, is_signed, "signed numbers"),
                UnaryOperator::LogicalNot => self.components(expr, is_boolean, "booleans"),
                UnaryOperator::BitwiseNot => self.components(expr, is_integer, "integers"),
            },
            Expression::Binary { op, left, right } => self.binary(op, left, right),
            Expression::Select { condition, accept, reject } => {
                let is_met = self.is_scalar(condition, Scalar::BOOL)
                    || self.along(condition, accept, Scalar::BOOL).is_ok();
                self.needs(is_met, condition, "booleans")?;
                self.components(accept, |_| true, "a scalar or a vector")?;
                self.same(reject, accept)
            }
            Expression::Derivative { expr, .. } => self.components(expr, is_float32, "floats"),
            Expression::Relational { fun, argument } => match fun {
                RelationalFunction::All | RelationalFunction::Any => {
                    self.components(argument, is_boolean, "booleans")
                }
                RelationalFunction::IsNan | RelationalFunction::IsInf => {
                    self.components(argument, is_float, "floats")
                }
            },
            Expression::Math { fun, arg, arg1, arg2, arg3 } => {
                self.math(fun, arg, arg1, arg2, arg3)
            }
            Expression::ArrayLength(array) => {
                let is_met = matches!(
                    self.behind(array),
                    Some(TypeInner::Array { size: ArraySize::Dynamic, .. })
                );
                self.needs(is_met, array, "a pointer to an array of a dynamic size")
            }
            Expression::RayQueryVertexPositions { query, .. }
            | Expression::RayQueryGetIntersection { query, .. } => self.ray_query(query),
            Expression::CooperativeLoad { ref data, .. } => {
                self.needs(self.is_scalar(data.stride, Scalar::U32), data.stride, "a u32")
            }
            Expression::CooperativeMultiplyAdd { a, b, c } => {
                self.cooperative(a)?;
                self.cooperative(b)?;
                self.cooperative(c)
            }
            _ => Ok(()),
        }
    }

    fn binary(&self, op: BinaryOperator, left: Operand, right: Operand) -> Judged {
        use BinaryOperator as Op;
        match op {
            Op::Add | Op::Subtract | Op::Multiply => self.entries(left, is_number, "numbers")?,
            Op::Equal | Op::NotEqual => self.components(left, |_| true, "a scalar or a vector")?,
            Op::LogicalAnd | Op::LogicalOr => self.components(left, is_boolean, "booleans")?,
            Op::And | Op::InclusiveOr => {
                self.components(left, |it| is_integer(it) || is_boolean(it), "bits")?
            }
            Op::ExclusiveOr | Op::ShiftLeft | Op::ShiftRight => {
                self.components(left, is_integer, "integers")?
            }
            Op::Divide | Op::Modulo | Op::Less | Op::LessEqual | Op::Greater | Op::GreaterEqual => {
                self.components(left, is_number, "numbers")?
            }
        }
        match op {
            Op::Multiply => {
                let scalar = self.entry(left);
                let is_met = scalar.is_some() && scalar == self.entry(right);
                self.needs(is_met, right, "the scalar of the other operand")
            }
            Op::ShiftLeft | Op::ShiftRight => self.along(right, left, Scalar::U32),
            _ => self.same(right, left),
        }
    }

    #[allow(clippy::too_many_arguments)]
    fn sample(
        &self,
        image: Operand,
        sampler: Operand,
        coordinate: Operand,
        array_index: Option<Operand>,
        offset: Option<Operand>,
        level: SampleLevel,
        depth_ref: Option<Operand>,
    ) -> Judged {
        let class = self.image(image).map(|(.., class)| class);
        let is_sampled = match class {
            Some(ImageClass::Sampled { multi, .. } | ImageClass::Depth { multi }) => !multi,
            Some(ImageClass::External) => true,
            _ => false,
        };
        self.needs(is_sampled, image, "an image that can be sampled")?;
        let has_depths = matches!(class, Some(ImageClass::Depth { .. }));
        self.needs(depth_ref.is_none() || has_depths, image, "an image of depths")?;
        let is_met = *self.inner(sampler).unwrap_or(&TypeInner::Scalar(Scalar::BOOL))
            == TypeInner::Sampler { comparison: depth_ref.is_some() };
        self.needs(is_met, sampler, "a sampler")?;
        self.position(coordinate, image, Scalar::F32)?;
        self.layers(image, array_index.is_some())?;
        self.integer(array_index)?;
        if let Some(offset) = offset {
            self.position(offset, image, Scalar::I32)?;
        }
        match level {
            SampleLevel::Auto | SampleLevel::Zero => {}
            SampleLevel::Exact(level) if has_depths => self.integer(Some(level))?,
            SampleLevel::Exact(level) | SampleLevel::Bias(level) => {
                self.needs(self.is_scalar(level, Scalar::F32), level, "an f32")?
            }
            SampleLevel::Gradient { x, y } => {
                self.position(x, image, Scalar::F32)?;
                self.position(y, image, Scalar::F32)?;
            }
        }
        match depth_ref {
            Some(depth) => self.needs(self.is_scalar(depth, Scalar::F32), depth, "an f32"),
            None => Ok(()),
        }
    }

    fn math(
        &self,
        fun: MathFunction,
        arg: Operand,
        arg1: Option<Operand>,
        arg2: Option<Operand>,
        arg3: Option<Operand>,
    ) -> Judged {
        use MathFunction as Mf;
        for (position, given) in [(1, arg1), (2, arg2), (3, arg3)] {
            if (position < fun.argument_count()) != given.is_some() {
                return Err(Mismatch::MathArguments(fun));
            }
        }
        let is_u32 = |it: Operand| self.needs(self.is_scalar(it, Scalar::U32), it, "a u32");
        if let Some(second) = arg1 {
            match fun {
                Mf::Outer => {}
                Mf::Ldexp => self.along(second, arg, Scalar::I32)?,
                Mf::ExtractBits => is_u32(second)?,
                _ => self.same(second, arg)?,
            }
        }
        if let Some(third) = arg2 {
            let is_entry =
                || self.entry(arg).is_some_and(|scalar| self.is_scalar(third, scalar));
            match fun {
                Mf::Refract => self.needs(is_entry(), third, "a component")?,
                Mf::Mix => {
                    self.needs(self.is_same(third, arg) || is_entry(), third, "a component")?
                }
                Mf::ExtractBits | Mf::InsertBits => is_u32(third)?,
                _ => self.same(third, arg)?,
            }
        }
        match arg3 {
            Some(fourth) => is_u32(fourth),
            None => Ok(()),
        }
    }

    fn boolean(&self, operand: Option<Operand>) -> Judged {
        match operand {
            Some(it) => self.needs(self.is_scalar(it, Scalar::BOOL), it, "a boolean"),
            None => Ok(()),
        }
    }

    fn is_from(&self, operand: Operand, ty: Option<TypeResolution>) -> Judged {
        let is_met = ty.is_some_and(|ty| self.has(operand, &ty));
        self.needs(is_met, operand, "another type")
    }

    fn statement(&self, statement: &Statement) -> Judged {
        match *statement {
            Statement::If { condition, .. } => self.boolean(Some(condition)),
            Statement::Switch { selector, ref cases } => {
                self.integer(Some(selector))?;
                for case in cases {
                    let scalar = match case.value {
                        SwitchValue::I32(_) => Scalar::I32,
                        SwitchValue::U32(_) => Scalar::U32,
                        SwitchValue::Default => continue,
                    };
                    self.needs(self.is_scalar(selector, scalar), selector, "the cases' type")?;
                }
                Ok(())
            }
            Statement::Loop { break_if, .. } => self.boolean(break_if),
            Statement::Return { value: Some(value) } => {
                let ty = self.function.result.as_ref().map(|it| TypeResolution::Handle(it.ty));
                self.is_from(value, ty)
            }
            Statement::Return { value: None } => match self.function.result {
                Some(_) => Err(Mismatch::Result),
                None => Ok(()),
            },
            Statement::Store { pointer, value } => {
                let ty = self.loaded(pointer);
                self.needs(ty.is_some(), pointer, "a pointer")?;
                self.is_from(value, ty)
            }
            Statement::ImageStore { image, coordinate, array_index, value } => {
                let size = Some(VectorSize::Quad);
                self.texel(image, coordinate, array_index, size, value)
            }
            Statement::ImageAtomic { image, coordinate, array_index, value, .. } => {
                self.texel(image, coordinate, array_index, None, value)
            }
            Statement::Atomic { pointer, ref fun, value, result } => {
                let scalar = match self.behind(pointer) {
                    Some(TypeInner::Atomic(scalar)) => *scalar,
                    _ => return Err(Mismatch::Operand(pointer, "a pointer to an atomic")),
                };
                self.needs(self.is_scalar(value, scalar), value, "the atomic's scalar")?;
                let ty = match *fun {
                    AtomicFunction::Exchange { compare: Some(compare) } => {
                        let is_met = self.is_scalar(compare, scalar);
                        self.needs(is_met, compare, "the atomic's scalar")?;
                        let key = PredeclaredType::AtomicCompareExchangeWeakResult(scalar);
                        let found = self.module.special_types.predeclared_types.get(&key);
                        found.map(|ty| TypeResolution::Handle(*ty))
                    }
                    _ => Some(TypeResolution::Value(TypeInner::Scalar(scalar))),
                };
                match result {
                    Some(result) => self.is_from(result, ty),
                    None => Ok(()),
                }
            }
            Statement::WorkGroupUniformLoad { pointer, result } => {
                let is_met = matches!(
                    self.inner(pointer),
                    Some(TypeInner::Pointer { space: AddressSpace::WorkGroup, .. })
                );
                self.needs(is_met, pointer, "a pointer into workgroup memory")?;
                self.is_from(result, self.loaded(pointer))
            }
            Statement::Call { function, ref arguments, result } => {
                let called = &self.module.functions[function];
                if called.arguments.len() != arguments.len()
                    || called.result.is_some() != result.is_some()
                {
                    return Err(Mismatch::Arguments(function));
                }
                for (argument, declared) in arguments.iter().zip(&called.arguments) {
                    let is_met = self.is_declared(*argument, declared.ty);
                    self.needs(is_met, *argument, "the argument's type")?;
                }
                Ok(())
            }
            Statement::RayQuery { query, ref fun } => {
                self.ray_query(query)?;
                match *fun {
                    RayQueryFunction::Initialize { acceleration_structure, descriptor } => {
                        self.rays(acceleration_structure, descriptor)
                    }
                    RayQueryFunction::Proceed { result } => self.boolean(Some(result)),
                    RayQueryFunction::GenerateIntersection { hit_t } => {
                        self.needs(self.is_scalar(hit_t, Scalar::F32), hit_t, "an f32")
                    }
                    RayQueryFunction::ConfirmIntersection | RayQueryFunction::Terminate => Ok(()),
                }
            }
            Statement::RayPipelineFunction(RayPipelineFunction::TraceRay {
                acceleration_structure,
                descriptor,
                payload,
            }) => {
                self.rays(acceleration_structure, descriptor)?;
                let is_met = matches!(
                    self.inner(payload),
                    Some(TypeInner::Pointer {
                        space: AddressSpace::RayPayload | AddressSpace::IncomingRayPayload,
                        ..
                    })
                );
                self.needs(is_met, payload, "a pointer to a payload")
            }
            Statement::SubgroupBallot { predicate, .. } => self.boolean(predicate),
            Statement::SubgroupGather { mode, argument, result } => {
                match mode {
                    GatherMode::Broadcast(index)
                    | GatherMode::Shuffle(index)
                    | GatherMode::ShuffleDown(index)
                    | GatherMode::ShuffleUp(index)
                    | GatherMode::ShuffleXor(index)
                    | GatherMode::QuadBroadcast(index) => {
                        self.needs(self.is_scalar(index, Scalar::U32), index, "a u32")?
                    }
                    GatherMode::BroadcastFirst | GatherMode::QuadSwap(_) => {}
                }
                self.same(argument, result)
            }
            Statement::SubgroupCollectiveOperation { argument, result, .. } => {
                self.same(argument, result)
            }
            Statement::CooperativeStore { target, ref data } => {
                let scalar = match self.inner(target) {
                    Some(TypeInner::CooperativeMatrix { scalar, .. }) => *scalar,
                    _ => return Err(Mismatch::Operand(target, "a cooperative matrix")),
                };
                let behind = match self.inner(data.pointer) {
                    Some(TypeInner::ValuePointer { scalar, .. }) => Some(*scalar),
                    _ => self.behind(data.pointer).and_then(scalar_of),
                };
                self.needs(behind == Some(scalar), data.pointer, "a pointer to its scalar")?;
                self.needs(self.is_scalar(data.stride, Scalar::U32), data.stride, "a u32")
            }
            Statement::Emit(_)
            | Statement::Block(_)
            | Statement::Break
            | Statement::Continue
            | Statement::Kill
            | Statement::ControlBarrier(_)
            | Statement::MemoryBarrier(_) => Ok(()),
        }
    }

    fn rays(&self, structure: Operand, descriptor: Operand) -> Judged {
        let is_met =
            matches!(self.inner(structure), Some(TypeInner::AccelerationStructure { .. }));
        self.needs(is_met, structure, "an acceleration structure")?;
        self.is_from(descriptor, self.module.special_types.ray_desc.map(TypeResolution::Handle))
    }

    fn texel(
        &self,
        image: Operand,
        coordinate: Operand,
        array_index: Option<Operand>,
        size: Option<VectorSize>,
        value: Operand,
    ) -> Judged {
        let scalar: Scalar = match self.image(image) {
            Some((.., ImageClass::Storage { format, .. })) => format.into(),
            _ => return Err(Mismatch::Operand(image, "a storage image")),
        };
        self.coordinate(coordinate, image)?;
        self.layers(image, array_index.is_some())?;
        self.integer(array_index)?;
        self.needs(self.is_sized(value, size, scalar), value, "a texel")
    }
}

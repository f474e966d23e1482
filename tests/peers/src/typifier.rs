//! The types of expressions.
use crate::arena::HandleVec;
use crate::*;

#[derive(Debug, PartialEq)]
pub enum TypeResolution {
    Handle(Handle<Type>),
    Value(TypeInner),
}

impl Clone for TypeResolution {
    fn clone(&self) -> Self {
        match *self {
            Self::Handle(handle) => Self::Handle(handle),
            Self::Value(ref inner) => Self::Value(match *inner {
                TypeInner::Scalar(scalar) => TypeInner::Scalar(scalar),
                TypeInner::Vector { size, scalar } => TypeInner::Vector { size, scalar },
                TypeInner::Matrix { columns, rows, scalar } => {
                    TypeInner::Matrix { columns, rows, scalar }
                }
                TypeInner::Pointer { base, space } => TypeInner::Pointer { base, space },
                TypeInner::ValuePointer { size, scalar, space } => {
                    TypeInner::ValuePointer { size, scalar, space }
                }
                ref other => other.clone(),
            }),
        }
    }
}

impl TypeResolution {
    pub fn inner_with<'a>(&'a self, types: &'a UniqueArena<Type>) -> &'a TypeInner {
        match self {
            Self::Handle(handle) => &types[*handle].inner,
            Self::Value(inner) => inner,
        }
    }
}

#[derive(Clone, Copy, Debug, PartialEq)]
pub enum ResolveError {
    Missing(Handle<Expression>),
    InvalidOperand(Handle<Expression>),
    InvalidOperands(Handle<Expression>, Handle<Expression>),
    OutOfBounds { base: Handle<Expression>, index: u32 },
    MissingArgument(u32),
    NoResult(Handle<Function>),
    MissingSpecialType,
}

pub struct ResolveContext<'a> {
    pub constants: &'a Arena<Constant>,
    pub overrides: &'a Arena<Override>,
    pub types: &'a UniqueArena<Type>,
    pub special_types: &'a SpecialTypes,
    pub global_vars: &'a Arena<GlobalVariable>,
    pub local_vars: &'a Arena<LocalVariable>,
    pub functions: &'a Arena<Function>,
    pub arguments: &'a [FunctionArgument],
}

#[derive(Default)]
pub struct Typifier {
    resolutions: HandleVec<Expression, TypeResolution>,
}

impl Typifier {
    pub fn new() -> Self {
        Self::default()
    }

    pub fn get(&self, handle: Handle<Expression>) -> Option<&TypeResolution> {
        self.resolutions.get(handle)
    }

    pub fn grow(
        &mut self,
        expressions: &Arena<Expression>,
        ctx: &ResolveContext<'_>,
    ) -> Result<(), (Handle<Expression>, ResolveError)> {
        let start = self.resolutions.len();
        expressions.iter().skip(start).try_for_each(|(handle, expression)| {
            match ctx.resolve(expression, &self.resolutions) {
                Ok(resolution) => Ok(self.resolutions.insert(handle, resolution)),
                Err(error) => Err((handle, error)),
            }
        })
    }
}

impl std::ops::Index<Handle<Expression>> for Typifier {
    type Output = TypeResolution;

    fn index(&self, handle: Handle<Expression>) -> &TypeResolution {
        &self.resolutions[handle]
    }
}

type Known = HandleVec<Expression, TypeResolution>;

fn value(inner: TypeInner) -> TypeResolution {
    TypeResolution::Value(inner)
}

fn pointer(space: AddressSpace, ty: Handle<Type>) -> TypeResolution {
    match space {
        AddressSpace::Handle => TypeResolution::Handle(ty),
        _ => value(TypeInner::Pointer { base: ty, space }),
    }
}

pub fn sized(size: Option<VectorSize>, scalar: Scalar) -> TypeInner {
    match size {
        Some(size) => TypeInner::Vector { size, scalar },
        None => TypeInner::Scalar(scalar),
    }
}

impl<'a> ResolveContext<'a> {
    pub fn with_function(module: &'a Module, function: &'a Function) -> Self {
        Self {
            constants: &module.constants,
            overrides: &module.overrides,
            types: &module.types,
            special_types: &module.special_types,
            global_vars: &module.global_variables,
            local_vars: &function.local_variables,
            functions: &module.functions,
            arguments: &function.arguments,
        }
    }

    fn past<'b>(
        &self,
        known: &'b Known,
        handle: Handle<Expression>,
    ) -> Result<&'b TypeResolution, ResolveError> {
        known.get(handle).ok_or(ResolveError::Missing(handle))
    }

    fn inner<'b>(
        &'b self,
        known: &'b Known,
        handle: Handle<Expression>,
    ) -> Result<&'b TypeInner, ResolveError> {
        Ok(self.past(known, handle)?.inner_with(self.types))
    }

    fn part(
        &self,
        inner: &TypeInner,
        base: Handle<Expression>,
        index: Option<u32>,
    ) -> Result<TypeResolution, ResolveError> {
        let check = |size: VectorSize| match index {
            Some(index) if index >= size as u32 => Err(ResolveError::OutOfBounds { base, index }),
            _ => Ok(()),
        };
        Ok(match *inner {
            TypeInner::Vector { size, scalar } => {
                check(size)?;
                value(TypeInner::Scalar(scalar))
            }
            TypeInner::Matrix { columns, rows, scalar } => {
                check(columns)?;
                value(TypeInner::Vector { size: rows, scalar })
            }
            TypeInner::Array { base, .. } | TypeInner::BindingArray { base, .. } => {
                TypeResolution::Handle(base)
            }
            TypeInner::Struct { ref members, .. } => {
                let index = index.ok_or(ResolveError::InvalidOperand(base))?;
                let member = members.get(index as usize);
                TypeResolution::Handle(member.ok_or(ResolveError::OutOfBounds { base, index })?.ty)
            }
            _ => return Err(ResolveError::InvalidOperand(base)),
        })
    }

    fn access(
        &self,
        known: &Known,
        base: Handle<Expression>,
        index: Option<u32>,
    ) -> Result<TypeResolution, ResolveError> {
        let (space, part) = match *self.inner(known, base)? {
            TypeInner::Pointer { base: ty, space } => {
                (space, self.part(&self.types[ty].inner, base, index)?)
            }
            TypeInner::ValuePointer { size: Some(size), scalar, space } => {
                (space, self.part(&TypeInner::Vector { size, scalar }, base, index)?)
            }
            ref inner => return self.part(inner, base, index),
        };
        Ok(value(match part {
            TypeResolution::Handle(base) => TypeInner::Pointer { base, space },
            TypeResolution::Value(TypeInner::Scalar(scalar)) => {
                TypeInner::ValuePointer { size: None, scalar, space }
            }
            TypeResolution::Value(TypeInner::Vector { size, scalar }) => {
                TypeInner::ValuePointer { size: Some(size), scalar, space }
            }
            TypeResolution::Value(_) => return Err(ResolveError::InvalidOperand(base)),
        }))
    }

    fn product(
        &self,
        known: &Known,
        left: Handle<Expression>,
        right: Handle<Expression>,
    ) -> Result<TypeResolution, ResolveError> {
        use TypeInner as Ti;
        let of_left = self.past(known, left)?;
        let of_right = self.past(known, right)?;
        let invalid = ResolveError::InvalidOperands(left, right);
        Ok(match (of_left.inner_with(self.types), of_right.inner_with(self.types)) {
            (Ti::Scalar(_) | Ti::Vector { .. } | Ti::Matrix { .. }, Ti::Scalar(_)) => {
                of_left.clone()
            }
            (Ti::Scalar(_), Ti::Vector { .. } | Ti::Matrix { .. }) => of_right.clone(),
            (Ti::Vector { size, .. }, Ti::Vector { size: again, .. }) if size == again => {
                of_left.clone()
            }
            (&Ti::Vector { size, .. }, &Ti::Matrix { columns, rows, scalar }) if size == rows => {
                value(Ti::Vector { size: columns, scalar })
            }
            (&Ti::Matrix { columns, rows, scalar }, &Ti::Vector { size, .. })
                if size == columns =>
            {
                value(Ti::Vector { size: rows, scalar })
            }
            (
                &Ti::Matrix { columns, rows, scalar },
                &Ti::Matrix { columns: others, rows: inside, .. },
            ) if columns == inside => value(Ti::Matrix { columns: others, rows, scalar }),
            _ => return Err(invalid),
        })
    }

    fn truths(
        &self,
        known: &Known,
        handle: Handle<Expression>,
    ) -> Result<TypeResolution, ResolveError> {
        match *self.inner(known, handle)? {
            TypeInner::Scalar(_) => Ok(value(TypeInner::Scalar(Scalar::BOOL))),
            TypeInner::Vector { size, .. } => {
                Ok(value(TypeInner::Vector { size, scalar: Scalar::BOOL }))
            }
            _ => Err(ResolveError::InvalidOperand(handle)),
        }
    }

    fn image_class(
        &self,
        known: &Known,
        image: Handle<Expression>,
    ) -> Result<ImageClass, ResolveError> {
        match *self.inner(known, image)? {
            TypeInner::Image { class, .. } => Ok(class),
            _ => Err(ResolveError::InvalidOperand(image)),
        }
    }

    fn math(
        &self,
        known: &Known,
        fun: MathFunction,
        arg: Handle<Expression>,
        arg1: Option<Handle<Expression>>,
    ) -> Result<TypeResolution, ResolveError> {
        use MathFunction as Mf;
        let ty = self.past(known, arg)?;
        let inner = ty.inner_with(self.types);
        let invalid = ResolveError::InvalidOperand(arg);
        let (size, scalar) = match *inner {
            TypeInner::Scalar(scalar) => (None, Some(scalar)),
            TypeInner::Vector { size, scalar } => (Some(size), Some(scalar)),
            _ => (None, None),
        };
        let numeric = |is: fn(Scalar) -> bool| scalar.filter(|it| is(*it)).is_some();
        let is_float = |it: Scalar| matches!(it.kind, ScalarKind::Float | ScalarKind::AbstractFloat);
        let is_integer = |it: Scalar| matches!(it.kind, ScalarKind::Sint | ScalarKind::Uint);
        let same = |is_valid: bool| if is_valid { Ok(ty.clone()) } else { Err(invalid.clone()) };
        let fixed = |is_valid: bool, size: Option<VectorSize>, scalar: Scalar| {
            if is_valid { Ok(value(sized(size, scalar))) } else { Err(invalid.clone()) }
        };
        match fun {
            Mf::Abs | Mf::Min | Mf::Max | Mf::Clamp => {
                same(numeric(|it| it.kind != ScalarKind::Bool))
            }
            Mf::Sign => {
                same(numeric(|it| !matches!(it.kind, ScalarKind::Bool | ScalarKind::Uint)))
            }
            Mf::Modf | Mf::Frexp => match scalar {
                Some(scalar) if is_float(scalar) => {
                    let key = if fun == Mf::Modf {
                        PredeclaredType::ModfResult { size, scalar }
                    } else {
                        PredeclaredType::FrexpResult { size, scalar }
                    };
                    let found = self.special_types.predeclared_types.get(&key);
                    found.map(|ty| TypeResolution::Handle(*ty)).ok_or(ResolveError::MissingSpecialType)
                }
                _ => Err(invalid),
            },
            Mf::Distance | Mf::Length => match scalar {
                Some(scalar) if is_float(scalar) => Ok(value(TypeInner::Scalar(scalar))),
                _ => Err(invalid),
            },
            Mf::Dot => match *inner {
                TypeInner::Vector { scalar, .. } if scalar.kind != ScalarKind::Bool => {
                    Ok(value(TypeInner::Scalar(scalar)))
                }
                _ => Err(invalid),
            },
            Mf::Dot4I8Packed => fixed(*inner == TypeInner::Scalar(Scalar::U32), None, Scalar::I32),
            Mf::Dot4U8Packed => fixed(*inner == TypeInner::Scalar(Scalar::U32), None, Scalar::U32),
            Mf::Outer => {
                let second = arg1.ok_or(ResolveError::InvalidOperand(arg))?;
                match (inner, self.inner(known, second)?) {
                    (&TypeInner::Vector { size: rows, scalar }, &TypeInner::Vector { size: columns, .. })
                        if is_float(scalar) =>
                    {
                        Ok(value(TypeInner::Matrix { columns, rows, scalar }))
                    }
                    _ => Err(invalid),
                }
            }
            Mf::Cross => same(size == Some(VectorSize::Tri) && scalar.is_some_and(is_float)),
            Mf::Normalize | Mf::FaceForward | Mf::Reflect | Mf::Refract => {
                same(size.is_some() && scalar.is_some_and(is_float))
            }
            Mf::Inverse | Mf::Determinant => match *inner {
                TypeInner::Matrix { columns, rows, scalar } if columns == rows && is_float(scalar) => {
                    if fun == Mf::Inverse {
                        Ok(ty.clone())
                    } else {
                        Ok(value(TypeInner::Scalar(scalar)))
                    }
                }
                _ => Err(invalid),
            },
            Mf::Transpose => match *inner {
                TypeInner::Matrix { columns, rows, scalar } if is_float(scalar) => {
                    Ok(value(TypeInner::Matrix { columns: rows, rows: columns, scalar }))
                }
                _ => Err(invalid),
            },
            Mf::QuantizeToF16 => same(scalar == Some(Scalar::F32)),
            Mf::CountTrailingZeros
            | Mf::CountLeadingZeros
            | Mf::CountOneBits
            | Mf::ReverseBits
            | Mf::ExtractBits
            | Mf::InsertBits
            | Mf::FirstTrailingBit
            | Mf::FirstLeadingBit => same(scalar.is_some_and(is_integer)),
            Mf::Pack4x8snorm | Mf::Pack4x8unorm => {
                let is_valid = size == Some(VectorSize::Quad) && scalar == Some(Scalar::F32);
                fixed(is_valid, None, Scalar::U32)
            }
            Mf::Pack2x16snorm | Mf::Pack2x16unorm | Mf::Pack2x16float => {
                let is_valid = size == Some(VectorSize::Bi) && scalar == Some(Scalar::F32);
                fixed(is_valid, None, Scalar::U32)
            }
            Mf::Pack4xI8 | Mf::Pack4xI8Clamp => {
                let is_valid = size == Some(VectorSize::Quad) && scalar == Some(Scalar::I32);
                fixed(is_valid, None, Scalar::U32)
            }
            Mf::Pack4xU8 | Mf::Pack4xU8Clamp => {
                let is_valid = size == Some(VectorSize::Quad) && scalar == Some(Scalar::U32);
                fixed(is_valid, None, Scalar::U32)
            }
            Mf::Unpack4x8snorm | Mf::Unpack4x8unorm => {
                fixed(*inner == TypeInner::Scalar(Scalar::U32), Some(VectorSize::Quad), Scalar::F32)
            }
            Mf::Unpack2x16snorm | Mf::Unpack2x16unorm | Mf::Unpack2x16float => {
                fixed(*inner == TypeInner::Scalar(Scalar::U32), Some(VectorSize::Bi), Scalar::F32)
            }
            Mf::Unpack4xI8 => {
                fixed(*inner == TypeInner::Scalar(Scalar::U32), Some(VectorSize::Quad), Scalar::I32)
            }
            Mf::Unpack4xU8 => {
                fixed(*inner == TypeInner::Scalar(Scalar::U32), Some(VectorSize::Quad), Scalar::U32)
            }
            _ => same(scalar.is_some_and(is_float)),
        }
    }

    pub fn resolve(
        &self,
        expression: &Expression,
        known: &Known,
    ) -> Result<TypeResolution, ResolveError> {
        use Expression as Ex;
        Ok(match *expression {
            Ex::Literal(literal) => value(literal.ty_inner()),
            Ex::Constant(handle) => TypeResolution::Handle(self.constants[handle].ty),
            Ex::Override(handle) => TypeResolution::Handle(self.overrides[handle].ty),
            Ex::ZeroValue(ty)
            | Ex::Compose { ty, .. }
            | Ex::AtomicResult { ty, .. }
            | Ex::WorkGroupUniformLoadResult { ty }
            | Ex::SubgroupOperationResult { ty } => TypeResolution::Handle(ty),
            Ex::Access { base, .. } => self.access(known, base, None)?,
            Ex::AccessIndex { base, index } => self.access(known, base, Some(index))?,
            Ex::Splat { size, value: of } => match *self.inner(known, of)? {
                TypeInner::Scalar(scalar) => value(TypeInner::Vector { size, scalar }),
                _ => return Err(ResolveError::InvalidOperand(of)),
            },
            Ex::Swizzle { size, vector, .. } => match *self.inner(known, vector)? {
                TypeInner::Vector { scalar, .. } => value(TypeInner::Vector { size, scalar }),
                _ => return Err(ResolveError::InvalidOperand(vector)),
            },
            Ex::FunctionArgument(index) => {
                let argument = self.arguments.get(index as usize);
                TypeResolution::Handle(argument.ok_or(ResolveError::MissingArgument(index))?.ty)
            }
            Ex::GlobalVariable(handle) => {
                let variable = &self.global_vars[handle];
                pointer(variable.space, variable.ty)
            }
            Ex::LocalVariable(handle) => {
                pointer(AddressSpace::Function, self.local_vars[handle].ty)
            }
            Ex::Load { pointer } => match *self.inner(known, pointer)? {
                TypeInner::Pointer { base, .. } => match self.types[base].inner {
                    TypeInner::Atomic(scalar) => value(TypeInner::Scalar(scalar)),
                    _ => TypeResolution::Handle(base),
                },
                TypeInner::ValuePointer { size, scalar, .. } => value(sized(size, scalar)),
                _ => return Err(ResolveError::InvalidOperand(pointer)),
            },
            Ex::ImageSample { image, gather, .. } => match self.image_class(known, image)? {
                ImageClass::Sampled { kind, .. } => {
                    let scalar = Scalar { kind, width: 4 };
                    value(TypeInner::Vector { size: VectorSize::Quad, scalar })
                }
                ImageClass::Depth { .. } => {
                    value(sized(gather.map(|_| VectorSize::Quad), Scalar::F32))
                }
                ImageClass::External if gather.is_none() => {
                    value(TypeInner::Vector { size: VectorSize::Quad, scalar: Scalar::F32 })
                }
                _ => return Err(ResolveError::InvalidOperand(image)),
            },
            Ex::ImageLoad { image, .. } => {
                let scalar = match self.image_class(known, image)? {
                    ImageClass::Depth { .. } => return Ok(value(TypeInner::Scalar(Scalar::F32))),
                    ImageClass::Sampled { kind, .. } => Scalar { kind, width: 4 },
                    ImageClass::Storage { format, .. } => format.into(),
                    ImageClass::External => Scalar::F32,
                };
                value(TypeInner::Vector { size: VectorSize::Quad, scalar })
            }
            Ex::ImageQuery { image, query: ImageQuery::Size { .. } } => {
                match *self.inner(known, image)? {
                    TypeInner::Image { dim, .. } => value(match dim {
                        ImageDimension::D1 => TypeInner::Scalar(Scalar::U32),
                        ImageDimension::D2 | ImageDimension::Cube => {
                            TypeInner::Vector { size: VectorSize::Bi, scalar: Scalar::U32 }
                        }
                        ImageDimension::D3 => {
                            TypeInner::Vector { size: VectorSize::Tri, scalar: Scalar::U32 }
                        }
                    }),
                    _ => return Err(ResolveError::InvalidOperand(image)),
                }
            }
            Ex::ImageQuery { .. } | Ex::ArrayLength(_) => value(TypeInner::Scalar(Scalar::U32)),
            Ex::Unary { expr, .. } | Ex::Derivative { expr, .. } => {
                self.past(known, expr)?.clone()
            }
            Ex::Binary { op, left, right } => match op {
                BinaryOperator::Multiply => self.product(known, left, right)?,
                BinaryOperator::Equal
                | BinaryOperator::NotEqual
                | BinaryOperator::Less
                | BinaryOperator::LessEqual
                | BinaryOperator::Greater
                | BinaryOperator::GreaterEqual
                | BinaryOperator::LogicalAnd
                | BinaryOperator::LogicalOr => self.truths(known, left)?,
                _ => self.past(known, left)?.clone(),
            },
            Ex::Select { accept, .. } => self.past(known, accept)?.clone(),
            Ex::Relational { fun, argument } => match fun {
                RelationalFunction::All | RelationalFunction::Any => {
                    value(TypeInner::Scalar(Scalar::BOOL))
                }
                RelationalFunction::IsNan | RelationalFunction::IsInf => {
                    self.truths(known, argument)?
                }
            },
            Ex::Math { fun, arg, arg1, .. } => self.math(known, fun, arg, arg1)?,
            Ex::As { expr, kind, convert } => {
                let cast = |scalar: Scalar| Scalar { kind, width: convert.unwrap_or(scalar.width) };
                match *self.inner(known, expr)? {
                    TypeInner::Scalar(scalar) => value(TypeInner::Scalar(cast(scalar))),
                    TypeInner::Vector { size, scalar } => {
                        value(TypeInner::Vector { size, scalar: cast(scalar) })
                    }
                    _ => return Err(ResolveError::InvalidOperand(expr)),
                }
            }
            Ex::CallResult(function) => {
                let result = self.functions[function].result.as_ref();
                TypeResolution::Handle(result.ok_or(ResolveError::NoResult(function))?.ty)
            }
            Ex::RayQueryVertexPositions { .. } => {
                let ty = self.special_types.ray_vertex_return;
                TypeResolution::Handle(ty.ok_or(ResolveError::MissingSpecialType)?)
            }
            Ex::RayQueryProceedResult => value(TypeInner::Scalar(Scalar::BOOL)),
            Ex::RayQueryGetIntersection { .. } => {
                let ty = self.special_types.ray_intersection;
                TypeResolution::Handle(ty.ok_or(ResolveError::MissingSpecialType)?)
            }
            Ex::SubgroupBallotResult => {
                value(TypeInner::Vector { size: VectorSize::Quad, scalar: Scalar::U32 })
            }
            Ex::CooperativeLoad { columns, rows, role, ref data } => {
                let scalar = match *self.inner(known, data.pointer)? {
                    TypeInner::Pointer { base, .. } => scalar_of(&self.types[base].inner),
                    TypeInner::ValuePointer { scalar, .. } => Some(scalar),
                    _ => None,
                };
                let scalar = scalar.ok_or(ResolveError::InvalidOperand(data.pointer))?;
                value(TypeInner::CooperativeMatrix { columns, rows, scalar, role })
            }
            Ex::CooperativeMultiplyAdd { c, .. } => self.past(known, c)?.clone(),
        })
    }
}

/// Returns the scalar of a number, a vector or a matrix.
pub fn scalar_of(inner: &TypeInner) -> Option<Scalar> {
    match *inner {
        TypeInner::Scalar(scalar)
        | TypeInner::Vector { scalar, .. }
        | TypeInner::Matrix { scalar, .. } => Some(scalar),
        _ => None,
    }
}

//! The layouts of types, their check, and the workloads on them.
use crate::item::{mixed, sample, timed};
use crate::proc_parts::GlobalCtx;
use crate::*;
use std::num::NonZeroU32;

#[derive(Clone, Copy, Debug, Eq, Ord, PartialEq, PartialOrd)]
pub struct Alignment(NonZeroU32);

impl Alignment {
    const ONE: Self = Self(NonZeroU32::MIN);
    const SIXTEEN: Self = Self(NonZeroU32::new(16).unwrap());

    fn new(n: u32) -> Option<Self> {
        if n.is_power_of_two() {
            NonZeroU32::new(n).map(Self)
        } else {
            None
        }
    }

    fn is_aligned(self, n: u32) -> bool {
        n & (self.0.get() - 1) == 0
    }

    fn times(self, factor: u32) -> Self {
        Self(NonZeroU32::new(self.0.get() * factor).unwrap())
    }
}

#[derive(Clone, Copy, Debug, PartialEq)]
pub struct TypeLayout {
    pub size: u32,
    pub alignment: Alignment,
}

#[derive(Clone, Copy, Debug, PartialEq)]
pub enum LayoutErrorInner {
    InvalidArrayElementType(Handle<Type>),
    InvalidStructMemberType(usize, Handle<Type>),
    NonPowerOfTwoWidth,
    TooLarge,
}

#[derive(Clone, Copy, Debug, PartialEq)]
pub struct LayoutError {
    ty: Handle<Type>,
    inner: LayoutErrorInner,
}

const MAX_TYPE_SIZE: u64 = 0x4000_0000;

fn column_stride(rows: VectorSize, scalar: Scalar) -> u32 {
    (rows as u32).next_power_of_two() * u32::from(scalar.width)
}

fn try_size(inner: &TypeInner, gctx: GlobalCtx) -> Option<u32> {
    Some(match *inner {
        TypeInner::Scalar(scalar) | TypeInner::Atomic(scalar) => scalar.width.into(),
        TypeInner::Vector { size, scalar } => size as u32 * u32::from(scalar.width),
        TypeInner::Matrix { columns, rows, scalar } => columns as u32 * column_stride(rows, scalar),
        TypeInner::CooperativeMatrix { columns, rows, scalar, .. } => {
            columns as u32 * rows as u32 * u32::from(scalar.width)
        }
        TypeInner::Pointer { .. } | TypeInner::ValuePointer { .. } => 4,
        TypeInner::Array { size, stride, .. } => {
            let count = match size.resolve(gctx) {
                Ok(IndexableLength::Known(count)) => count,
                _ => 1,
            };
            let bytes = u64::from(count) * u64::from(stride);
            return if bytes <= MAX_TYPE_SIZE { Some(bytes as u32) } else { None };
        }
        TypeInner::Struct { span, .. } => span,
        _ => 0,
    })
}

#[derive(Default)]
pub struct Layouter {
    layouts: Vec<TypeLayout>,
}

impl Layouter {
    pub fn update(&mut self, gctx: GlobalCtx) -> Result<(), LayoutError> {
        let known = self.layouts.len();
        self.layouts.reserve(gctx.types.len() - known);
        for (ty, it) in gctx.types.iter().skip(known) {
            let layout = self.layout_of(&it.inner, gctx).map_err(|inner| LayoutError { ty, inner })?;
            self.layouts.push(layout);
        }
        Ok(())
    }

    fn layout_of(&self, inner: &TypeInner, gctx: GlobalCtx) -> Result<TypeLayout, LayoutErrorInner> {
        let size = try_size(inner, gctx).ok_or(LayoutErrorInner::TooLarge)?;
        let scaled = |factor: u32, scalar: Scalar| {
            let alignment = Alignment::new(scalar.width.into()).ok_or(LayoutErrorInner::NonPowerOfTwoWidth)?;
            Ok(alignment.times(factor))
        };
        let alignment = match *inner {
            TypeInner::Scalar(scalar) | TypeInner::Atomic(scalar) => scaled(1, scalar)?,
            TypeInner::Vector { size, scalar } => scaled((size as u32).next_power_of_two(), scalar)?,
            TypeInner::Matrix { rows, scalar, .. } => scaled((rows as u32).next_power_of_two(), scalar)?,
            TypeInner::CooperativeMatrix { rows, scalar, .. } => scaled(rows as u32, scalar)?,
            TypeInner::Array { base, .. } => {
                let layout = self.layouts.get(base.index());
                layout.ok_or(LayoutErrorInner::InvalidArrayElementType(base))?.alignment
            }
            TypeInner::Struct { ref members, .. } => {
                let mut alignment = Alignment::ONE;
                for (index, member) in members.iter().enumerate() {
                    let layout = self.layouts.get(member.ty.index());
                    let layout = layout.ok_or(LayoutErrorInner::InvalidStructMemberType(index, member.ty))?;
                    alignment = alignment.max(layout.alignment);
                }
                alignment
            }
            _ => Alignment::ONE,
        };
        Ok(TypeLayout { size, alignment })
    }
}

// The check.

#[derive(Clone, Copy, Debug, PartialEq)]
pub enum Cause {
    NoLayout(LayoutErrorInner),
    InvalidArrayBaseType,
    ArrayStride { stride: u32, alignment: Alignment },
    InvalidArrayStride { stride: u32, expected: u32 },
    UnsizedMember,
    MemberOffset { offset: u32, alignment: Alignment },
    MemberOverlap { offset: u32, expected: u32 },
    MemberOutOfBounds { offset: u32, size: u32, span: u32 },
    StructSpan { span: u32, alignment: Alignment },
    NonHostShareable,
    UniformStride { stride: u32 },
    UniformOffset { offset: u32 },
    MemberOffsetAfterStruct { offset: u32, expected: u64 },
}

#[derive(Clone, Copy, Debug, PartialEq)]
pub struct Fault {
    ty: Handle<Type>,
    member: Option<usize>,
    cause: Cause,
}

fn is_open_array(inner: &TypeInner) -> bool {
    matches!(inner, TypeInner::Array { size: ArraySize::Pending(_) | ArraySize::Dynamic, .. })
}

fn is_open(types: &UniqueArena<Type>, inner: &TypeInner) -> bool {
    match inner {
        TypeInner::Struct { members, .. } => members.last().is_some_and(|last| is_open_array(&types[last.ty].inner)),
        _ => is_open_array(inner),
    }
}

fn member_cause(types: &UniqueArena<Type>, layout: TypeLayout, member: &StructMember, is_last: bool, start: u32, span: u32) -> Option<Cause> {
    let inner = &types[member.ty].inner;
    let TypeLayout { size, alignment } = layout;
    let offset = member.offset;
    if is_open(types, inner) && !(is_last && is_open_array(inner)) {
        Some(Cause::UnsizedMember)
    } else if !alignment.is_aligned(offset) {
        Some(Cause::MemberOffset { offset, alignment })
    } else if offset < start {
        Some(Cause::MemberOverlap { offset, expected: start })
    } else if u64::from(offset) + u64::from(size) > u64::from(span) {
        Some(Cause::MemberOutOfBounds { offset, size, span })
    } else {
        None
    }
}

fn check_type(types: &UniqueArena<Type>, layouts: &[TypeLayout], ty: Handle<Type>, inner: &TypeInner) -> Result<(), Fault> {
    let fault = |member, cause| Fault { ty, member, cause };
    match *inner {
        TypeInner::Array { base, stride, .. } => {
            let TypeLayout { size, alignment } = layouts[base.index()];
            if is_open(types, &types[base].inner) {
                return Err(fault(None, Cause::InvalidArrayBaseType));
            }
            if !alignment.is_aligned(stride) {
                return Err(fault(None, Cause::ArrayStride { stride, alignment }));
            }
            if stride < size {
                return Err(fault(None, Cause::InvalidArrayStride { stride, expected: size }));
            }
        }
        TypeInner::Struct { ref members, span } => {
            let mut start = 0;
            for (index, member) in members.iter().enumerate() {
                let layout = layouts[member.ty.index()];
                if let Some(cause) = member_cause(types, layout, member, index + 1 == members.len(), start, span) {
                    return Err(fault(Some(index), cause));
                }
                start = member.offset + layout.size;
            }
            let alignment = layouts[ty.index()].alignment;
            if !alignment.is_aligned(span) {
                return Err(fault(None, Cause::StructSpan { span, alignment }));
            }
        }
        _ => {}
    }
    Ok(())
}

/// Why values of a type cannot be in a space that the host shares, and in a uniform buffer.
#[derive(Clone, Copy)]
struct SpaceFaults {
    shared: Option<Fault>,
    uniform: Option<Fault>,
}

fn shared_fault(known: &[SpaceFaults], ty: Handle<Type>, inner: &TypeInner) -> Option<Fault> {
    let unshareable = Some(Fault { ty, member: None, cause: Cause::NonHostShareable });
    match *inner {
        TypeInner::Scalar(scalar)
        | TypeInner::Atomic(scalar)
        | TypeInner::Vector { scalar, .. }
        | TypeInner::Matrix { scalar, .. }
        | TypeInner::CooperativeMatrix { scalar, .. } => match scalar.kind {
            ScalarKind::Sint | ScalarKind::Uint | ScalarKind::Float => None,
            _ => unshareable,
        },
        TypeInner::Array { base, .. } | TypeInner::BindingArray { base, .. } => known[base.index()].shared,
        TypeInner::Struct { ref members, .. } => members.iter().find_map(|member| known[member.ty.index()].shared),
        _ => unshareable,
    }
}

fn uniform_fault(types: &UniqueArena<Type>, known: &[SpaceFaults], ty: Handle<Type>, inner: &TypeInner) -> Option<Fault> {
    match *inner {
        TypeInner::Array { base, stride, .. } => known[base.index()].uniform.or_else(|| {
            let cause = Cause::UniformStride { stride };
            (!Alignment::SIXTEEN.is_aligned(stride)).then_some(Fault { ty, member: None, cause })
        }),
        TypeInner::BindingArray { base, .. } => known[base.index()].uniform,
        TypeInner::Struct { ref members, .. } => {
            let mut least = 0;
            for (index, member) in members.iter().enumerate() {
                if let Some(fault) = known[member.ty.index()].uniform {
                    return Some(fault);
                }
                let (offset, inner) = (member.offset, &types[member.ty].inner);
                let is_block = matches!(inner, TypeInner::Array { .. } | TypeInner::Struct { .. });
                if is_block && !Alignment::SIXTEEN.is_aligned(offset) {
                    return Some(Fault { ty, member: Some(index), cause: Cause::UniformOffset { offset } });
                }
                if u64::from(offset) < least {
                    let cause = Cause::MemberOffsetAfterStruct { offset, expected: least };
                    return Some(Fault { ty, member: Some(index), cause });
                }
                least = match *inner {
                    TypeInner::Struct { span, .. } => u64::from(offset) + u64::from(span).next_multiple_of(16),
                    _ => 0,
                };
            }
            None
        }
        _ => None,
    }
}

fn check_variables(module: &Module) -> Result<(), Fault> {
    let mut known = Vec::with_capacity(module.types.len());
    for (ty, it) in module.types.iter() {
        let shared = shared_fault(&known, ty, &it.inner);
        let uniform = uniform_fault(&module.types, &known, ty, &it.inner);
        known.push(SpaceFaults { shared, uniform });
    }
    for (_, variable) in module.global_variables.iter() {
        let SpaceFaults { shared, uniform } = known[variable.ty.index()];
        let fault = match variable.space {
            AddressSpace::Storage { .. } | AddressSpace::Immediate => shared,
            AddressSpace::Uniform => shared.or(uniform),
            _ => None,
        };
        if let Some(fault) = fault {
            return Err(fault);
        }
    }
    Ok(())
}

fn context_of(module: &Module) -> GlobalCtx<'_> {
    GlobalCtx {
        types: &module.types,
        constants: &module.constants,
        overrides: &module.overrides,
        global_expressions: &module.global_expressions,
    }
}

fn check_layouts(module: &Module) -> Result<(), Fault> {
    let mut layouter = Layouter::default();
    if let Err(LayoutError { ty, inner }) = layouter.update(context_of(module)) {
        let member = match inner {
            LayoutErrorInner::InvalidStructMemberType(index, _) => Some(index),
            _ => None,
        };
        return Err(Fault { ty, member, cause: Cause::NoLayout(inner) });
    }
    for (ty, it) in module.types.iter() {
        check_type(&module.types, &layouter.layouts, ty, &it.inner)?;
    }
    check_variables(module)
}

// The workloads.

fn module_of(size: u32) -> Module {
    let mut owner = Module::default();
    let declare = |owner: &mut Module, inner| owner.types.insert(Type { name: None, inner }, Span::UNDEFINED);
    let scalar = declare(&mut owner, TypeInner::Scalar(Scalar::F32));
    let vector = declare(&mut owner, TypeInner::Vector { size: VectorSize::Tri, scalar: Scalar::F32 });
    let member = |ty, offset| StructMember { name: None, ty, binding: None, offset };
    let mut last = scalar;
    for number in 0..size {
        let inner = if number % 2 == 0 {
            let count = ArraySize::Constant(NonZeroU32::new((number + 1) * 4).unwrap());
            TypeInner::Array { base: scalar, size: count, stride: 4 }
        } else {
            let members = vec![member(vector, 0), member(scalar, 12), member(last, 16)];
            TypeInner::Struct { members, span: number * 16 + 16 }
        };
        last = declare(&mut owner, inner);
    }
    owner
}

pub fn update(size: u32) -> Sample {
    let owner = module_of(size);
    let mut layouter = Layouter::default();
    let (updated, time) = timed(|| layouter.update(context_of(&owner)));
    updated.unwrap();
    let sum = layouter.layouts.iter().fold(0, |sum, layout| mixed(sum, layout.size.into()));
    sample(size, sum, 0, time)
}

pub fn check(size: u32) -> Sample {
    let owner = module_of(size);
    let (checked, time) = timed(|| check_layouts(&owner));
    checked.unwrap();
    sample(size, owner.types.len() as u64, 0, time)
}

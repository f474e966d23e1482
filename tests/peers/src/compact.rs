//! Culling what is never reached, and compacting functions and modules.
use crate::uses::{operands_mut, statement_operands_mut, try_operands};
use crate::*;
use std::convert::Infallible;

#[derive(Clone, Copy)]
struct Ways {
    falls_off: bool,
    breaks: bool,
}

impl Ways {
    const OFF: Self = Self { falls_off: true, breaks: false };
    const NONE: Self = Self { falls_off: false, breaks: false };

    fn either(self, other: Self) -> Self {
        Self {
            falls_off: self.falls_off || other.falls_off,
            breaks: self.breaks || other.breaks,
        }
    }
}

/// Removes the statements that control never reaches.
pub fn cull_unreachable(block: &mut Block) {
    cull(block);
}

fn cull(block: &mut Block) -> Ways {
    let mut ways = Ways::OFF;
    let mut kept = 0;
    for statement in block.iter_mut() {
        kept += 1;
        let last = match statement {
            Statement::Block(block) => cull(block),
            Statement::If { accept, reject, .. } => cull(accept).either(cull(reject)),
            Statement::Switch { cases, .. } => cull_cases(cases),
            Statement::Loop { body, continuing, break_if } => {
                let body = cull(body);
                cull(continuing);
                Ways { falls_off: body.breaks || break_if.is_some(), breaks: false }
            }
            Statement::Break => Ways { falls_off: false, breaks: true },
            Statement::Continue | Statement::Return { .. } | Statement::Kill => Ways::NONE,
            _ => Ways::OFF,
        };
        ways = Ways { falls_off: last.falls_off, breaks: ways.breaks || last.breaks };
        if !ways.falls_off {
            break;
        }
    }
    if kept < block.len() {
        block.cull(kept..);
    }
    ways
}

fn cull_cases(cases: &mut [SwitchCase]) -> Ways {
    let has_default = cases.iter().any(|case| case.value == SwitchValue::Default);
    let falls = cases.last().is_some_and(|case| case.fall_through);
    let mut falls_off = !has_default || falls;
    for case in cases {
        let body = cull(&mut case.body);
        falls_off |= body.breaks || (body.falls_off && !case.fall_through);
    }
    Ways { falls_off, breaks: false }
}

/// A set of the handles of an arena.
struct Marks<T> {
    are_marked: Vec<bool>,
    kind: std::marker::PhantomData<T>,
}

impl<T> Marks<T> {
    fn new(len: usize) -> Self {
        Self { are_marked: vec![false; len], kind: std::marker::PhantomData }
    }

    fn insert(&mut self, handle: Handle<T>) {
        self.are_marked[handle.index()] = true;
    }

    fn insert_iter(&mut self, handles: impl IntoIterator<Item = Handle<T>>) {
        handles.into_iter().for_each(|handle| self.insert(handle));
    }

    fn contains(&self, handle: Handle<T>) -> bool {
        self.are_marked[handle.index()]
    }
}

/// The new handles of what is kept.
struct HandleMap<T> {
    indices: Vec<Option<non_max_u32::NonMaxU32>>,
    kind: std::marker::PhantomData<T>,
}

impl<T> HandleMap<T> {
    fn new(used: &Marks<T>) -> Self {
        let mut kept = 0;
        let new_index = |is_kept: &bool| {
            let index = if *is_kept { non_max_u32::NonMaxU32::new(kept) } else { None };
            kept += u32::from(*is_kept);
            index
        };
        Self { indices: used.are_marked.iter().map(new_index).collect(), kind: std::marker::PhantomData }
    }

    fn get(&self, handle: Handle<T>) -> Option<Handle<T>> {
        self.indices[handle.index()].map(Handle::new)
    }

    fn adjust(&self, handle: &mut Handle<T>) {
        *handle = self.get(*handle).unwrap();
    }

    fn adjust_range(&self, range: &mut Range<T>, compacted: &Arena<T>) {
        let bounds = range.index_range();
        let mut kept = self.indices[bounds.start as usize..bounds.end as usize].iter().flatten();
        let range_of = match kept.next() {
            Some(first) => {
                let last = kept.next_back().unwrap_or(first);
                first.get()..last.get() + 1
            }
            None => 0..0,
        };
        *range = Range::from_index_range(range_of, compacted);
    }
}

fn mark_block(block: &mut Block, used: &mut Marks<Expression>) {
    for statement in block.iter_mut() {
        statement_operands_mut(statement, |handle| {
            used.insert(*handle);
        });
        each_block(statement, |block| mark_block(block, used));
    }
}

fn each_block(statement: &mut Statement, mut f: impl FnMut(&mut Block)) {
    match statement {
        Statement::Block(block) => f(block),
        Statement::If { accept, reject, .. } => {
            f(accept);
            f(reject);
        }
        Statement::Switch { cases, .. } => cases.iter_mut().for_each(|case| f(&mut case.body)),
        Statement::Loop { body, continuing, .. } => {
            f(body);
            f(continuing);
        }
        _ => {}
    }
}

fn adjust_block(block: &mut Block, map: &HandleMap<Expression>, compacted: &Arena<Expression>) {
    for statement in block.iter_mut() {
        statement_operands_mut(statement, |handle| map.adjust(handle));
        if let Statement::Emit(range) = statement {
            map.adjust_range(range, compacted);
        }
        each_block(statement, |block| adjust_block(block, map, compacted));
    }
}

/// Returns the expressions of a function that are used, and calls `other` for each of them.
fn used_expressions(function: &mut Function, other: impl FnMut(&Expression)) -> Marks<Expression> {
    let mut used = Marks::new(function.expressions.len());
    mark_block(&mut function.body, &mut used);
    for (_, variable) in function.local_variables.iter() {
        used.insert_iter(variable.init);
    }
    mark_operands(&function.expressions, &mut used, other);
    used
}

fn mark_operands(
    expressions: &Arena<Expression>,
    used: &mut Marks<Expression>,
    mut other: impl FnMut(&Expression),
) {
    for (handle, expression) in expressions.iter().rev() {
        if used.contains(handle) {
            other(expression);
            let _: Result<(), Infallible> = try_operands(expression, |operand| {
                used.insert(operand);
                Ok(())
            });
        }
    }
}

/// Keeps the used expressions of a function, each changed by `other`.
fn keep(
    function: &mut Function,
    used: &Marks<Expression>,
    mut other: impl FnMut(&mut Expression),
) {
    let map = HandleMap::new(used);
    function.expressions.retain_mut(|handle, expression| {
        if map.get(handle).is_none() {
            return false;
        }
        operands_mut(expression, |operand| map.adjust(operand));
        other(expression);
        true
    });
    let mut names = NamedExpressions::default();
    for (handle, name) in function.named_expressions.drain() {
        if let Some(handle) = map.get(handle) {
            names.insert(handle, name);
        }
    }
    function.named_expressions = names;
    for (_, variable) in function.local_variables.iter_mut() {
        variable.init.iter_mut().for_each(|init| map.adjust(init));
    }
    adjust_block(&mut function.body, &map, &function.expressions);
}

/// Removes the expressions of a function that nothing uses.
pub fn compact_function(function: &mut Function) {
    let used = used_expressions(function, |_| {});
    keep(function, &used, |_| {});
}

/// What a module uses beside the expressions of its functions.
struct Used {
    types: Marks<Type>,
    constants: Marks<Constant>,
    overrides: Marks<Override>,
    global_expressions: Marks<Expression>,
}

impl Used {
    fn expression(&mut self, expression: &Expression) {
        match *expression {
            Expression::Constant(handle) => {
                self.constants.insert(handle);
            }
            Expression::Override(handle) => {
                self.overrides.insert(handle);
            }
            Expression::ZeroValue(ty)
            | Expression::Compose { ty, .. }
            | Expression::AtomicResult { ty, .. }
            | Expression::WorkGroupUniformLoadResult { ty }
            | Expression::SubgroupOperationResult { ty } => {
                self.types.insert(ty);
            }
            _ => {}
        }
    }

    fn size(&mut self, size: ArraySize) {
        if let ArraySize::Pending(handle) = size {
            self.overrides.insert(handle);
        }
    }

    fn inner(&mut self, inner: &TypeInner) {
        match *inner {
            TypeInner::Pointer { base, .. } => {
                self.types.insert(base);
            }
            TypeInner::Array { base, size, .. } | TypeInner::BindingArray { base, size } => {
                self.types.insert(base);
                self.size(size);
            }
            TypeInner::Struct { ref members, .. } => {
                self.types.insert_iter(members.iter().map(|member| member.ty));
            }
            _ => {}
        }
    }
}

struct Maps {
    types: HandleMap<Type>,
    constants: HandleMap<Constant>,
    overrides: HandleMap<Override>,
    global_expressions: HandleMap<Expression>,
}

impl Maps {
    fn expression(&self, expression: &mut Expression) {
        match expression {
            Expression::Constant(handle) => self.constants.adjust(handle),
            Expression::Override(handle) => self.overrides.adjust(handle),
            Expression::ZeroValue(ty)
            | Expression::Compose { ty, .. }
            | Expression::AtomicResult { ty, .. }
            | Expression::WorkGroupUniformLoadResult { ty }
            | Expression::SubgroupOperationResult { ty } => self.types.adjust(ty),
            _ => {}
        }
    }

    fn inner(&self, inner: &mut TypeInner) {
        match inner {
            TypeInner::Pointer { base, .. } => self.types.adjust(base),
            TypeInner::Array { base, size, .. } | TypeInner::BindingArray { base, size } => {
                self.types.adjust(base);
                if let ArraySize::Pending(handle) = size {
                    self.overrides.adjust(handle);
                }
            }
            TypeInner::Struct { members, .. } => {
                members.iter_mut().for_each(|member| self.types.adjust(&mut member.ty));
            }
            _ => {}
        }
    }
}

/// Removes the expressions that nothing uses, and the types, constants and overrides without names. Functions, entry
/// points and global variables are kept.
pub fn compact(module: &mut Module) {
    let mut used = Used {
        types: Marks::new(module.types.len()),
        constants: Marks::new(module.constants.len()),
        overrides: Marks::new(module.overrides.len()),
        global_expressions: Marks::new(module.global_expressions.len()),
    };
    for (_, variable) in module.global_variables.iter() {
        used.types.insert(variable.ty);
        used.global_expressions.insert_iter(variable.init);
    }
    let named = module.constants.iter().filter(|(_, it)| it.name.is_some());
    used.constants.insert_iter(named.map(|(handle, _)| handle));
    let named = module.overrides.iter().filter(|(_, it)| it.name.is_some() || it.id.is_some());
    used.overrides.insert_iter(named.map(|(handle, _)| handle));
    let named = module.types.iter().filter(|(_, it)| it.name.is_some());
    used.types.insert_iter(named.map(|(handle, _)| handle));

    let of_functions = module.functions.iter_mut().map(|(_, function)| function);
    let of_entries = module.entry_points.iter_mut().map(|entry| &mut entry.function);
    let marked: Vec<_> =
        of_functions.chain(of_entries).map(|function| mark_function(function, &mut used)).collect();
    mark_declarations(module, &mut used);

    let maps = Maps {
        types: HandleMap::new(&used.types),
        constants: HandleMap::new(&used.constants),
        overrides: HandleMap::new(&used.overrides),
        global_expressions: HandleMap::new(&used.global_expressions),
    };
    keep_declarations(module, &maps);
    let of_functions = module.functions.iter_mut().map(|(_, function)| function);
    let of_entries = module.entry_points.iter_mut().map(|entry| &mut entry.function);
    for (function, marked) in of_functions.chain(of_entries).zip(&marked) {
        function.arguments.iter_mut().for_each(|it| maps.types.adjust(&mut it.ty));
        function.result.iter_mut().for_each(|it| maps.types.adjust(&mut it.ty));
        for (_, variable) in function.local_variables.iter_mut() {
            maps.types.adjust(&mut variable.ty);
        }
        keep(function, marked, |expression| maps.expression(expression));
    }
}

fn mark_function(function: &mut Function, used: &mut Used) -> Marks<Expression> {
    used.types.insert_iter(function.arguments.iter().map(|it| it.ty));
    used.types.insert_iter(function.result.iter().map(|it| it.ty));
    used.types.insert_iter(function.local_variables.iter().map(|(_, it)| it.ty));
    used_expressions(function, |expression| used.expression(expression))
}

fn mark_declarations(module: &Module, used: &mut Used) {
    for (handle, it) in module.overrides.iter() {
        if used.overrides.contains(handle) {
            used.types.insert(it.ty);
            used.global_expressions.insert_iter(it.init);
        }
    }
    for (handle, it) in module.constants.iter() {
        if used.constants.contains(handle) {
            used.types.insert(it.ty);
            used.global_expressions.insert(it.init);
        }
    }
    let mut global_expressions = std::mem::replace(&mut used.global_expressions, Marks::new(0));
    mark_operands(&module.global_expressions, &mut global_expressions, |expression| used.expression(expression));
    used.global_expressions = global_expressions;
    for (handle, ty) in module.types.iter().rev() {
        if used.types.contains(handle) {
            used.inner(&ty.inner);
        }
    }
}

fn keep_declarations(module: &mut Module, maps: &Maps) {
    let mut types = UniqueArena::new();
    for (handle, mut ty, span) in module.types.drain_all() {
        if maps.types.get(handle).is_some() {
            maps.inner(&mut ty.inner);
            types.insert(ty, span);
        }
    }
    module.types = types;
    module.constants.retain_mut(|handle, it| {
        let is_kept = maps.constants.get(handle).is_some();
        if is_kept {
            maps.types.adjust(&mut it.ty);
            maps.global_expressions.adjust(&mut it.init);
        }
        is_kept
    });
    module.overrides.retain_mut(|handle, it| {
        let is_kept = maps.overrides.get(handle).is_some();
        if is_kept {
            maps.types.adjust(&mut it.ty);
            it.init.iter_mut().for_each(|init| maps.global_expressions.adjust(init));
        }
        is_kept
    });
    module.global_expressions.retain_mut(|handle, expression| {
        let is_kept = maps.global_expressions.get(handle).is_some();
        if is_kept {
            operands_mut(expression, |operand| maps.global_expressions.adjust(operand));
            maps.expression(expression);
        }
        is_kept
    });
    for (_, variable) in module.global_variables.iter_mut() {
        maps.types.adjust(&mut variable.ty);
        variable.init.iter_mut().for_each(|init| maps.global_expressions.adjust(init));
    }
}

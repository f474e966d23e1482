//! Names for labels and for what a module declares, and the workloads on them.
use crate::item::{mixed, sample, timed};
use crate::*;
use std::borrow::Cow;
use std::collections::{HashMap, HashSet};
use std::fmt::Write;
use std::sync::LazyLock;

/// The words of WGSL, as the crate naga_namer lists them.
static WGSL: LazyLock<HashSet<&'static str>> = LazyLock::new(|| {
    let lines = include_str!("../../../crates/naga_namer/src/wgsl.rt").lines();
    lines.filter_map(|line| line.strip_prefix("    \"")?.strip_suffix("\",")).collect()
});

const PREFIXES: &[&str] = &["__"];

#[derive(Clone, Copy, Debug, Eq, Hash, PartialEq)]
pub enum NameKey {
    Constant(Handle<Constant>),
    Override(Handle<Override>),
    GlobalVariable(Handle<GlobalVariable>),
    Type(Handle<Type>),
    StructMember(Handle<Type>, usize),
    Function(Handle<Function>),
    FunctionArgument(Handle<Function>, usize),
    FunctionLocal(Handle<Function>, Handle<LocalVariable>),
    EntryPoint(usize),
    EntryPointArgument(usize, usize),
    EntryPointLocal(usize, Handle<LocalVariable>),
}

type Names = FastIndexMap<NameKey, String>;

struct Namer {
    reserved: &'static HashSet<&'static str>,
    /// The number of the last name of each base.
    counts: HashMap<String, u64>,
}

impl Namer {
    fn new() -> Self {
        Self { reserved: &WGSL, counts: HashMap::new() }
    }

    fn sanitize<'s>(&self, label: &'s str) -> Cow<'s, str> {
        let label = label.trim_start_matches(|c: char| c.is_numeric());
        let plain = |c: char| c.is_ascii_alphanumeric() || c == '_';
        let base = if !label.is_empty() && !label.contains("__") && label.chars().all(plain) {
            Cow::Borrowed(label.trim_end_matches('_'))
        } else {
            Cow::Owned(filtered(label))
        };
        if PREFIXES.iter().any(|prefix| base.starts_with(prefix)) {
            return Cow::Owned(format!("gen_{base}"));
        }
        base
    }

    fn call(&mut self, label: &str) -> String {
        let base = self.sanitize(label);
        match self.counts.get_mut(base.as_ref()) {
            Some(count) => {
                *count += 1;
                let mut name = base.into_owned();
                write!(name, "_{count}").unwrap();
                name
            }
            None => {
                let mut name = base.to_string();
                if base.ends_with(|c: char| c.is_ascii_digit()) || self.reserved.contains(base.as_ref()) {
                    name.push('_');
                }
                self.counts.insert(base.into_owned(), 0);
                name
            }
        }
    }

    fn call_or(&mut self, label: &Option<String>, fallback: &str) -> String {
        self.call(label.as_deref().unwrap_or(fallback))
    }

    fn reset(&mut self, module: &Module) -> Names {
        self.counts.clear();
        let mut names = Names::default();
        self.name_types(module, &mut names);
        for (index, entry) in module.entry_points.iter().enumerate() {
            names.insert(NameKey::EntryPoint(index), self.call(&entry.name));
            for (argument, it) in entry.function.arguments.iter().enumerate() {
                names.insert(NameKey::EntryPointArgument(index, argument), self.call_or(&it.name, "param"));
            }
            for (local, it) in entry.function.local_variables.iter() {
                names.insert(NameKey::EntryPointLocal(index, local), self.call_or(&it.name, "local"));
            }
        }
        for (handle, function) in module.functions.iter() {
            names.insert(NameKey::Function(handle), self.call_or(&function.name, "function"));
            for (argument, it) in function.arguments.iter().enumerate() {
                names.insert(NameKey::FunctionArgument(handle, argument), self.call_or(&it.name, "param"));
            }
            for (local, it) in function.local_variables.iter() {
                names.insert(NameKey::FunctionLocal(handle, local), self.call_or(&it.name, "local"));
            }
        }
        for (handle, global) in module.global_variables.iter() {
            names.insert(NameKey::GlobalVariable(handle), self.call_or(&global.name, "global"));
        }
        for (handle, constant) in module.constants.iter() {
            let name = match &constant.name {
                Some(name) => self.call(name),
                None => self.call(&format!("const_{}", names.get(&NameKey::Type(constant.ty)).unwrap())),
            };
            names.insert(NameKey::Constant(handle), name);
        }
        for (handle, it) in module.overrides.iter() {
            let name = match &it.name {
                Some(name) => self.call(name),
                None => self.call(&format!("override_{}", names.get(&NameKey::Type(it.ty)).unwrap())),
            };
            names.insert(NameKey::Override(handle), name);
        }
        name_members(module, &mut names);
        names
    }

    fn name_types(&mut self, module: &Module, names: &mut Names) {
        let mut fallbacks = HashMap::new();
        for entry in &module.entry_points {
            if let Some(result) = &entry.function.result {
                if let TypeInner::Struct { .. } = module.types[result.ty].inner {
                    let label = match entry.stage {
                        ShaderStage::Vertex => "VertexOutput",
                        ShaderStage::Fragment => "FragmentOutput",
                        ShaderStage::Compute => "ComputeOutput",
                        _ => "type",
                    };
                    fallbacks.insert(result.ty, label);
                }
            }
        }
        for (handle, ty) in module.types.iter() {
            let name = match &ty.name {
                Some(name) => self.call(name),
                None => self.call(fallbacks.get(&handle).copied().unwrap_or("type")),
            };
            names.insert(NameKey::Type(handle), name);
        }
    }
}

/// Names the members of each structure in a scope of its own.
fn name_members(module: &Module, names: &mut Names) {
    let mut scope = Namer::new();
    for (handle, ty) in module.types.iter() {
        if let TypeInner::Struct { members, .. } = &ty.inner {
            scope.counts.clear();
            for (index, member) in members.iter().enumerate() {
                names.insert(NameKey::StructMember(handle, index), scope.call_or(&member.name, "member"));
            }
        }
    }
}

/// Returns the characters of a label that an identifier may have, and the codes of others.
fn filtered(label: &str) -> String {
    let mut base = String::new();
    for c in label.chars() {
        let c = if matches!(c, ':' | '<' | '>' | ',') { '_' } else { c };
        let separated = base.ends_with('_');
        if c == '_' && separated {
            continue;
        }
        if c.is_ascii_alphanumeric() || c == '_' {
            base.push(c);
        } else {
            if !base.is_empty() && !separated {
                base.push('_');
            }
            write!(base, "u{:04x}_", c as u32).unwrap();
        }
    }
    base.truncate(base.trim_end_matches('_').len());
    if base.is_empty() {
        base.push_str("unnamed");
    }
    base
}

fn label(number: u32) -> String {
    match number % 4 {
        0 => "value".to_string(),
        1 => format!("normal_{}", number / 256),
        2 => format!("position{number}"),
        _ => format!("array<vec{number},4>"),
    }
}

pub fn call(size: u32) -> Sample {
    LazyLock::force(&WGSL);
    let labels: Vec<String> = (0..size).map(label).collect();
    let mut namer = Namer::new();
    let (sum, time) = timed(|| labels.iter().fold(0, |sum, label| mixed(sum, namer.call(label).len() as u64)));
    sample(size, sum, labels.len() as u64, time)
}

fn add_function(owner: &mut Module, ty: Handle<Type>) {
    let mut function = Function::default();
    function.name = Some("shade".to_string());
    for name in [Some("vertex".to_string()), None] {
        function.arguments.push(FunctionArgument { name, ty, binding: None });
    }
    for name in [Some("color".to_string()), None] {
        function.local_variables.append(LocalVariable { name, ty, init: None }, Span::UNDEFINED);
    }
    owner.functions.append(function, Span::UNDEFINED);
}

pub fn reset(size: u32) -> Sample {
    LazyLock::force(&WGSL);
    let mut owner = Module::default();
    let base = Type { name: None, inner: TypeInner::Scalar(Scalar::F32) };
    let base = owner.types.insert(base, Span::UNDEFINED);
    for number in 0..size / 8 {
        let member = |name, offset| StructMember { name, ty: base, binding: None, offset };
        let members = vec![member(Some("x".to_string()), 0), member(None, 4)];
        let ty = Type { name: Some(format!("Vertex{number}")), inner: TypeInner::Struct { members, span: 8 } };
        let ty = owner.types.insert(ty, Span::UNDEFINED);
        add_function(&mut owner, ty);
    }
    let mut namer = Namer::new();
    let (names, time) = timed(|| namer.reset(&owner));
    let sum = names.iter().fold(0, |sum, (_, name)| mixed(sum, name.len() as u64));
    sample(size, sum, names.len() as u64, time)
}

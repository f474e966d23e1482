//! The workloads of naga_bench in plain Rust, over naga's own files.
//!
//! usage: peers NAME [REPEATS]        the full size, with the least time, as naga_bench prints it
//!        peers                       each workload on its small size
#![allow(dead_code, unexpected_cfgs, unused_imports)]
extern crate alloc;

#[path = "../out/naga/arena/mod.rs"]
pub mod arena;
#[path = "../out/naga/diagnostic_filter.rs"]
pub mod diagnostic_filter;
#[path = "../out/naga/ir/mod.rs"]
pub mod ir;
#[path = "../out/naga/non_max_u32.rs"]
mod non_max_u32;
#[path = "../out/naga/proc/emitter.rs"]
mod emitter;
#[path = "../out/naga/proc/mod_parts.rs"]
mod proc_parts;
#[path = "../out/naga/span.rs"]
mod span;
#[path = "../out/naga/proc/terminator.rs"]
mod terminator;

mod arenas;
mod blocks;
mod bounds;
mod building;
mod compact;
mod context;
mod filters;
mod item;
mod jumps;
mod kinds;
mod layouts;
mod modules;
mod names;
mod returns;
mod sets;
mod spans;
mod typifier;
mod typing;
mod unique_arenas;
mod uses;

pub use arena::{Arena, Handle, Range, UniqueArena};
pub use context::*;
pub use ir::*;
pub use span::{SourceLocation, Span, SpanContext, WithSpan};

use std::time::Duration;

/// The result of a run of a workload.
pub struct Sample {
    pub operations: u64,
    pub checksum: u64,
    pub time: Duration,
}

type Run = fn(u32) -> Sample;

/// The workloads in the order of naga_bench: name, full size, small size.
const WORKLOADS: &[(&str, u32, u32, Run)] = &[
    ("arena_append", 1_000_000, 200, arenas::append),
    ("arena_index", 1_000_000, 200, arenas::index),
    ("arena_iterate", 1_000_000, 200, arenas::iterate),
    ("arena_fetch_or_append", 1_000_000, 200, arenas::fetch_or_append),
    ("arena_retain_mut", 1_000_000, 200, arenas::retain_mut),
    ("arena_drain", 1_000_000, 200, arenas::drain),
    ("arena_clone", 1_000_000, 200, arenas::replace_by_clone),
    ("range_iterate", 1_000_000, 200, arenas::iterate_range),
    ("unique_arena_insert", 1_000_000, 200, unique_arenas::insert),
    ("unique_arena_get", 1_000_000, 200, unique_arenas::get),
    ("handle_set_insert_tenth", 1_000_000, 200, sets::insert_tenth),
    ("handle_set_insert_full", 1_000_000, 200, sets::insert_full),
    ("handle_set_contains_tenth", 1_000_000, 200, sets::contains_tenth),
    ("handle_set_contains_full", 1_000_000, 200, sets::contains_full),
    ("handle_set_remove_tenth", 1_000_000, 200, sets::remove_tenth),
    ("handle_set_remove_full", 1_000_000, 200, sets::remove_full),
    ("handle_set_iterate_tenth", 1_000_000, 200, sets::iterate_tenth),
    ("handle_set_iterate_full", 1_000_000, 200, sets::iterate_full),
    ("span_subsume", 1_000_000, 200, spans::subsume),
    ("span_total", 1_000_000, 200, spans::total),
    ("span_location", 10_000, 200, spans::location),
    ("span_slice_of", 1_000_000, 200, spans::slice_of),
    ("error_with_spans", 100_000, 200, spans::error_with_spans),
    ("block_push", 1_000_000, 200, blocks::push),
    ("block_splice_cull", 100_000, 200, blocks::splice_cull),
    ("block_clone", 1_000_000, 200, blocks::replace_by_clone),
    ("literal_new", 1_000_000, 200, kinds::literal_new),
    ("kind_tables", 1_000_000, 200, kinds::kind_tables),
    ("constant_value", 1_000_000, 200, kinds::constant_value),
    ("typifier_grow", 1_000_000, 200, modules::typifier_grow),
    ("check_types", 1_000_000, 200, modules::check_types),
    ("check_bounds", 1_000_000, 200, modules::check_bounds),
    ("restrict", 1_000_000, 200, modules::restrict),
    ("namer_call", 100_000, 200, names::call),
    ("namer_reset", 100_000, 200, names::reset),
    ("layouter_update", 1_000_000, 200, layouts::update),
    ("check_layouts", 1_000_000, 200, layouts::check),
    ("check_jumps", 1_000_000, 200, modules::check_jumps),
    ("check_jumps_nest", 10_000, 200, modules::check_jumps_nest),
    ("filter_add", 100_000, 200, filters::add),
    ("filter_search", 100_000, 200, filters::search),
    ("flatten_compose", 1_000_000, 200, building::flattening),
    ("build", 100_000, 200, building::build),
    ("compact_function", 1_000_000, 200, modules::compact_function),
    ("compact", 1_000_000, 200, modules::compact),
    ("cull_unreachable", 10_000, 200, modules::cull_unreachable),
    ("returns_on_chain", 1_000, 200, returns::chain),
    ("returns_on_chain_old", 1_000, 200, returns::chain_old),
    ("returns_on_tree", 18, 8, returns::tree),
    ("returns_on_tree_old", 18, 8, returns::tree_old),
    ("returns_on_switches", 1_000, 200, returns::switches),
    ("returns_on_switches_old", 1_000, 200, returns::switches_old),
    ("returns_on_exits", 1_000, 200, returns::exits),
    ("returns_on_exits_old", 1_000, 200, returns::exits_old),
    ("returns_on_wide_switch", 100, 200, returns::wide_switch),
    ("returns_on_wide_switch_old", 100, 200, returns::wide_switch_old),
];

fn main() {
    let words: Vec<String> = std::env::args().skip(1).collect();
    if words.is_empty() {
        for (name, _, small, run) in WORKLOADS {
            let sample = run(*small);
            println!("{name} {} {}", sample.operations, sample.checksum);
        }
        return;
    }
    let repeats = words.get(1).map_or(1, |it| it.parse::<u32>().unwrap());
    let (name, full, _, run) = WORKLOADS.iter().find(|it| it.0 == words[0]).expect("a workload");
    let mut least = run(*full);
    for _ in 1..repeats {
        let sample = run(*full);
        if sample.time < least.time {
            least = sample;
        }
    }
    let hundredths = least.time.as_nanos() * 100 / u128::from(least.operations);
    println!("{name} {} {} {hundredths}", least.operations, least.checksum);
}

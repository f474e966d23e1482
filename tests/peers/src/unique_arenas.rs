//! Workloads on unique arenas.
use crate::arena::UniqueArena;
use crate::item::{item_of, mixed, sample, span, timed, Item};
use crate::Sample;

/// Inserts half as many values as `size`, each twice.
fn insert_items(arena: &mut UniqueArena<Item>, size: u32) {
    for number in 0..size {
        arena.insert(item_of(number / 2), span(number));
    }
}

pub fn insert(size: u32) -> Sample {
    let mut arena = UniqueArena::new();
    let ((), time) = timed(|| insert_items(&mut arena, size));
    let left = arena.iter().fold(0, |sum, (handle, item)| mixed(sum, item.key ^ handle.index() as u64));
    sample(size, 0, left, time)
}

/// Looks up `size` values, half of which are in the arena.
pub fn get(size: u32) -> Sample {
    let mut arena = UniqueArena::new();
    insert_items(&mut arena, size);
    let (left, time) = timed(|| {
        let found = (0..size).filter_map(|number| arena.get(&item_of(number)));
        found.fold(0, |sum, handle| mixed(sum, handle.index() as u64))
    });
    sample(size, 0, left, time)
}

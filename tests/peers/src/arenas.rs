//! Workloads on arenas, and on ranges of their handles.
use crate::arena::Arena;
use crate::item::{handle, item_of, mixed, sample, span, timed, up_to, Item};
use crate::Sample;

fn append_items(arena: &mut Arena<Item>, size: u32) -> u64 {
    for number in 0..size {
        arena.append(item_of(number), span(number));
    }
    0
}

fn sum_of(arena: &Arena<Item>) -> u64 {
    let mut sum = 0;
    for (handle, item) in arena.iter() {
        sum = mixed(sum, item.key);
        sum = mixed(sum, arena.get_span(handle).to_range().unwrap_or(0..0).start as u64);
    }
    sum
}

/// Times an operation on an arena that has `before` elements.
fn on_arena(size: u32, before: u32, run: impl FnOnce(&mut Arena<Item>) -> u64) -> Sample {
    let mut arena = Arena::new();
    append_items(&mut arena, before);
    let (given, time) = timed(|| run(&mut arena));
    sample(size, given, sum_of(&arena), time)
}

pub fn append(size: u32) -> Sample {
    on_arena(size, 0, |arena| append_items(arena, size))
}

pub fn index(size: u32) -> Sample {
    on_arena(size, size, |arena| {
        (0..arena.len() as u32).fold(0, |sum, number| mixed(sum, arena[handle(number)].key))
    })
}

pub fn iterate(size: u32) -> Sample {
    on_arena(size, size, |arena| {
        arena.iter().fold(0_u64, |sum, (handle, item)| sum.wrapping_add(item.key ^ handle.index() as u64))
    })
}

/// Fetches `size` values, of which only 64 are different, and appends those that are missing.
pub fn fetch_or_append(size: u32) -> Sample {
    on_arena(size, 0, |arena| {
        (0..size).fold(0, |sum, number| {
            mixed(sum, arena.fetch_or_append(item_of(number % 64), span(number)).index() as u64)
        })
    })
}

/// Keeps every other element.
pub fn retain_mut(size: u32) -> Sample {
    on_arena(size, size, |arena| {
        arena.retain_mut(|_, item| item.key % 2 == 0);
        0
    })
}

pub fn drain(size: u32) -> Sample {
    on_arena(size, size, |arena| {
        let mut sum = 0_u64;
        for (handle, item, span) in arena.drain() {
            let end = span.to_range().unwrap_or(0..0).end;
            sum = sum.wrapping_add(item.key ^ handle.index() as u64 ^ end as u64);
        }
        sum
    })
}

pub fn replace_by_clone(size: u32) -> Sample {
    on_arena(size, size, |arena| {
        *arena = arena.clone();
        0
    })
}

pub fn iterate_range(size: u32) -> Sample {
    on_arena(size, size, |_| {
        up_to::<Item>(size).fold(0, |sum, handle| mixed(sum, handle.index() as u64))
    })
}

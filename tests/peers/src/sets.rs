//! Workloads on sets of handles, in which either every tenth handle or every handle is a member.
use crate::arena::HandleSet;
use crate::item::{mixed, sample, timed, up_to, Item};
use crate::Sample;

#[derive(Clone, Copy)]
enum Filling {
    Tenth,
    Full,
}

type Set = HandleSet<Item>;

fn insert(handles: &mut Set, size: u32, filling: Filling) -> u64 {
    match filling {
        Filling::Tenth => up_to(size)
            .filter(|handle| handle.index() % 10 == 0)
            .fold(0, |sum, handle| mixed(sum, handles.insert(handle).into())),
        Filling::Full => up_to(size).fold(0, |sum, handle| mixed(sum, handles.insert(handle).into())),
    }
}

fn iterate(handles: &Set) -> u64 {
    handles.iter().fold(0, |sum, handle| mixed(sum, handle.index() as u64))
}

/// Times an operation on a set that has its members, or on an empty one.
fn on_set(size: u32, filling: Filling, is_empty: bool, run: fn(&mut Set, u32, Filling) -> u64) -> Sample {
    let mut handles = HandleSet::new();
    let set_up = insert(&mut handles, size, filling);
    if is_empty {
        handles.clear();
    }
    let (given, time) = timed(|| run(&mut handles, size, filling));
    sample(size, given, mixed(set_up, iterate(&handles)), time)
}

fn contains(handles: &mut Set, size: u32, _: Filling) -> u64 {
    up_to(size).fold(0, |sum, handle| mixed(sum, handles.contains(handle).into()))
}

fn remove(handles: &mut Set, size: u32, _: Filling) -> u64 {
    up_to(size).fold(0, |sum, handle| mixed(sum, handles.remove(handle).into()))
}

pub fn insert_tenth(size: u32) -> Sample {
    on_set(size, Filling::Tenth, true, insert)
}

pub fn insert_full(size: u32) -> Sample {
    on_set(size, Filling::Full, true, insert)
}

pub fn contains_tenth(size: u32) -> Sample {
    on_set(size, Filling::Tenth, false, contains)
}

pub fn contains_full(size: u32) -> Sample {
    on_set(size, Filling::Full, false, contains)
}

pub fn remove_tenth(size: u32) -> Sample {
    on_set(size, Filling::Tenth, false, remove)
}

pub fn remove_full(size: u32) -> Sample {
    on_set(size, Filling::Full, false, remove)
}

pub fn iterate_tenth(size: u32) -> Sample {
    on_set(size, Filling::Tenth, false, |handles, _, _| iterate(handles))
}

pub fn iterate_full(size: u32) -> Sample {
    on_set(size, Filling::Full, false, |handles, _, _| iterate(handles))
}

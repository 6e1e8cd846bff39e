//! Calls of the exported functions with slices. A slice of length 0 may come with any pointer, so it
//! gets all sorts in turn.

use qorshudan::exported::{
    qorshudan_check, qorshudan_check_owners, qorshudan_closest_encloser, qorshudan_compare,
    qorshudan_covers, qorshudan_denial, qorshudan_find_owner, qorshudan_has_type,
    qorshudan_hash_between, qorshudan_next_closer, qorshudan_read_types, qorshudan_write_types,
    Asking, Filling, ModifiedIn, Neighbour, NeighbourIn,
};
use std::sync::atomic::{AtomicUsize, Ordering};

// SAFETY, of every call here: a pointer and a length are those of one slice that lives through the
// call, or the length is 0; a mutable slice, the space, overlaps no other.

pub fn check(name: &[u8]) -> u64 {
    unsafe { qorshudan_check(start(name), name.len()) }
}

pub fn compare(first: &[u8], second: &[u8]) -> u64 {
    unsafe { qorshudan_compare(start(first), first.len(), start(second), second.len()) }
}

pub fn between(first: &[u8], hash: &[u8], second: &[u8]) -> u64 {
    unsafe {
        qorshudan_hash_between(
            start(first),
            first.len(),
            start(hash),
            hash.len(),
            start(second),
            second.len(),
        )
    }
}

pub fn closest_encloser(query: &[u8], owner: &[u8], next: &[u8]) -> u64 {
    unsafe {
        qorshudan_closest_encloser(
            start(query),
            query.len(),
            start(owner),
            owner.len(),
            start(next),
            next.len(),
        )
    }
}

pub fn next_closer(encloser: &[u8], query: &[u8]) -> u64 {
    unsafe { qorshudan_next_closer(start(encloser), encloser.len(), start(query), query.len()) }
}

pub fn covers(owner: &[u8], next: &[u8], name: &[u8]) -> u64 {
    unsafe {
        qorshudan_covers(
            start(owner),
            owner.len(),
            start(next),
            next.len(),
            start(name),
            name.len(),
        )
    }
}

pub fn denial(apex: &[u8], limit: u64, encloser: &[u8], query: &[u8], space: &mut [u8]) -> u64 {
    let length = space.len();
    unsafe {
        qorshudan_denial(
            start(apex),
            apex.len(),
            limit,
            start(encloser),
            encloser.len(),
            start(query),
            query.len(),
            start_of_space(space),
            length,
        )
    }
}

pub fn fill(function: Filling, octets: &[u8], space: &mut [u8]) -> u64 {
    let length = space.len();
    unsafe { function(start(octets), octets.len(), start_of_space(space), length) }
}

pub fn neighbour(
    function: Neighbour,
    apex: &[u8],
    limit: u64,
    name: &[u8],
    space: &mut [u8],
) -> u64 {
    let length = space.len();
    unsafe {
        function(
            start(apex),
            apex.len(),
            limit,
            start(name),
            name.len(),
            start_of_space(space),
            length,
        )
    }
}

pub fn neighbour_in(
    function: NeighbourIn,
    alphabet: u64,
    apex: &[u8],
    limit: u64,
    name: &[u8],
    space: &mut [u8],
) -> u64 {
    let length = space.len();
    unsafe {
        function(
            alphabet,
            start(apex),
            apex.len(),
            limit,
            start(name),
            name.len(),
            start_of_space(space),
            length,
        )
    }
}

pub fn modified_in(
    function: ModifiedIn,
    (alphabet, depth): (u64, u64),
    apex: &[u8],
    limit: u64,
    name: &[u8],
    space: &mut [u8],
) -> u64 {
    let length = space.len();
    unsafe {
        function(
            alphabet,
            depth,
            start(apex),
            apex.len(),
            limit,
            start(name),
            name.len(),
            start_of_space(space),
            length,
        )
    }
}

/// The list of types is lent as its octets, two to a type.
pub fn read_types(bitmap: &[u8], types: &mut [u8]) -> u64 {
    assert!(types.is_empty() || types.as_ptr() as usize % 2 == 0);
    let count = types.len() / 2;
    unsafe {
        qorshudan_read_types(
            start(bitmap),
            bitmap.len(),
            start_of_space(types).cast(),
            count,
        )
    }
}

/// The list of types is given as its octets, two to a type.
pub fn write_types(types: &[u8], space: &mut [u8]) -> u64 {
    assert!(types.is_empty() || types.as_ptr() as usize % 2 == 0);
    let (count, length) = (types.len() / 2, space.len());
    unsafe { qorshudan_write_types(start(types).cast(), count, start_of_space(space), length) }
}

pub fn has_type(bitmap: &[u8], of: u16) -> u64 {
    unsafe { qorshudan_has_type(start(bitmap), bitmap.len(), of) }
}

pub fn ask(function: Asking, bitmap: &[u8]) -> u64 {
    unsafe { function(start(bitmap), bitmap.len()) }
}

/// The starts are given as their octets, four to a start.
pub fn check_owners(apex: &[u8], limit: u64, names: &[u8], starts: &[u8]) -> u64 {
    assert!(starts.is_empty() || starts.as_ptr() as usize % 4 == 0);
    let count = starts.len() / 4;
    unsafe {
        qorshudan_check_owners(
            start(apex),
            apex.len(),
            limit,
            start(names),
            names.len(),
            start(starts).cast(),
            count,
        )
    }
}

/// The starts are given as their octets, four to a start.
pub fn find_owner(names: &[u8], starts: &[u8], query: &[u8]) -> u64 {
    assert!(starts.is_empty() || starts.as_ptr() as usize % 4 == 0);
    let count = starts.len() / 4;
    unsafe {
        qorshudan_find_owner(
            start(names),
            names.len(),
            start(starts).cast(),
            count,
            start(query),
            query.len(),
        )
    }
}

fn start(slice: &[u8]) -> *const u8 {
    if slice.is_empty() {
        any_pointer(slice.as_ptr() as usize) as *const u8
    } else {
        slice.as_ptr()
    }
}

fn start_of_space(space: &mut [u8]) -> *mut u8 {
    if space.is_empty() {
        any_pointer(space.as_ptr() as usize) as *mut u8
    } else {
        space.as_mut_ptr()
    }
}

fn any_pointer(own: usize) -> usize {
    static TURN: AtomicUsize = AtomicUsize::new(0);
    match TURN.fetch_add(1, Ordering::Relaxed) % 3 {
        0 => own,
        1 => 0,
        _ => usize::MAX,
    }
}

//! The functions as the library exports them to C: each takes a slice as its pointer and its
//! length; of a list of types that is the number of types. [`raw`](crate::raw) has them on slices.
//!
//! # Safety
//!
//! The octets of an input can be read, those of a space read and written. The space overlaps no
//! input; inputs may overlap one another. A slice of length 0 may come with any pointer.

#![allow(missing_docs)]

/// An operation that fills a space.
pub type Filling = unsafe extern "C" fn(*const u8, usize, *mut u8, usize) -> u64;

/// What is asked of a bitmap.
pub type Asking = unsafe extern "C" fn(*const u8, usize) -> u64;

/// A neighbour: apex, limit, name, space.
pub type Neighbour =
    unsafe extern "C" fn(*const u8, usize, u64, *const u8, usize, *mut u8, usize) -> u64;

/// A neighbour in an alphabet: alphabet, apex, limit, name, space.
pub type NeighbourIn =
    unsafe extern "C" fn(u64, *const u8, usize, u64, *const u8, usize, *mut u8, usize) -> u64;

/// A modified neighbour in an alphabet: alphabet, depth, apex, limit, name, space.
pub type ModifiedIn =
    unsafe extern "C" fn(u64, u64, *const u8, usize, u64, *const u8, usize, *mut u8, usize) -> u64;

extern "C" {
    pub fn qorshudan_version() -> u64;

    pub fn qorshudan_check(name: *const u8, name_length: usize) -> u64;

    pub fn qorshudan_compare(
        first: *const u8,
        first_length: usize,
        second: *const u8,
        second_length: usize,
    ) -> u64;

    pub fn qorshudan_fold(
        name: *const u8,
        name_length: usize,
        space: *mut u8,
        space_length: usize,
    ) -> u64;

    pub fn qorshudan_label_places(
        name: *const u8,
        name_length: usize,
        places: *mut u8,
        places_length: usize,
    ) -> u64;

    pub fn qorshudan_write_key(
        name: *const u8,
        name_length: usize,
        space: *mut u8,
        space_length: usize,
    ) -> u64;

    pub fn qorshudan_read_key(
        key: *const u8,
        key_length: usize,
        space: *mut u8,
        space_length: usize,
    ) -> u64;

    pub fn qorshudan_write_text(
        name: *const u8,
        name_length: usize,
        space: *mut u8,
        space_length: usize,
    ) -> u64;

    pub fn qorshudan_read_text(
        text: *const u8,
        text_length: usize,
        space: *mut u8,
        space_length: usize,
    ) -> u64;

    pub fn qorshudan_predecessor(
        apex: *const u8,
        apex_length: usize,
        limit: u64,
        name: *const u8,
        name_length: usize,
        space: *mut u8,
        space_length: usize,
    ) -> u64;

    pub fn qorshudan_successor(
        apex: *const u8,
        apex_length: usize,
        limit: u64,
        name: *const u8,
        name_length: usize,
        space: *mut u8,
        space_length: usize,
    ) -> u64;

    pub fn qorshudan_modified_predecessor(
        apex: *const u8,
        apex_length: usize,
        limit: u64,
        name: *const u8,
        name_length: usize,
        space: *mut u8,
        space_length: usize,
    ) -> u64;

    pub fn qorshudan_modified_successor(
        apex: *const u8,
        apex_length: usize,
        limit: u64,
        name: *const u8,
        name_length: usize,
        space: *mut u8,
        space_length: usize,
    ) -> u64;

    pub fn qorshudan_predecessor_in(
        alphabet: u64,
        apex: *const u8,
        apex_length: usize,
        limit: u64,
        name: *const u8,
        name_length: usize,
        space: *mut u8,
        space_length: usize,
    ) -> u64;

    pub fn qorshudan_successor_in(
        alphabet: u64,
        apex: *const u8,
        apex_length: usize,
        limit: u64,
        name: *const u8,
        name_length: usize,
        space: *mut u8,
        space_length: usize,
    ) -> u64;

    pub fn qorshudan_modified_predecessor_in(
        alphabet: u64,
        depth: u64,
        apex: *const u8,
        apex_length: usize,
        limit: u64,
        name: *const u8,
        name_length: usize,
        space: *mut u8,
        space_length: usize,
    ) -> u64;

    pub fn qorshudan_modified_successor_in(
        alphabet: u64,
        depth: u64,
        apex: *const u8,
        apex_length: usize,
        limit: u64,
        name: *const u8,
        name_length: usize,
        space: *mut u8,
        space_length: usize,
    ) -> u64;

    pub fn qorshudan_hash_after(
        hash: *const u8,
        hash_length: usize,
        space: *mut u8,
        space_length: usize,
    ) -> u64;

    pub fn qorshudan_hash_before(
        hash: *const u8,
        hash_length: usize,
        space: *mut u8,
        space_length: usize,
    ) -> u64;

    pub fn qorshudan_write_hash_label(
        hash: *const u8,
        hash_length: usize,
        space: *mut u8,
        space_length: usize,
    ) -> u64;

    pub fn qorshudan_read_hash_label(
        label: *const u8,
        label_length: usize,
        space: *mut u8,
        space_length: usize,
    ) -> u64;

    pub fn qorshudan_hash_between(
        first: *const u8,
        first_length: usize,
        hash: *const u8,
        hash_length: usize,
        second: *const u8,
        second_length: usize,
    ) -> u64;

    pub fn qorshudan_closest_encloser(
        query: *const u8,
        query_length: usize,
        owner: *const u8,
        owner_length: usize,
        next: *const u8,
        next_length: usize,
    ) -> u64;

    pub fn qorshudan_wildcard(
        encloser: *const u8,
        encloser_length: usize,
        space: *mut u8,
        space_length: usize,
    ) -> u64;

    pub fn qorshudan_subtree_successor(
        alphabet: u64,
        apex: *const u8,
        apex_length: usize,
        limit: u64,
        name: *const u8,
        name_length: usize,
        space: *mut u8,
        space_length: usize,
    ) -> u64;

    pub fn qorshudan_next_closer(
        encloser: *const u8,
        encloser_length: usize,
        query: *const u8,
        query_length: usize,
    ) -> u64;

    pub fn qorshudan_covers(
        owner: *const u8,
        owner_length: usize,
        next: *const u8,
        next_length: usize,
        name: *const u8,
        name_length: usize,
    ) -> u64;

    pub fn qorshudan_denial(
        apex: *const u8,
        apex_length: usize,
        limit: u64,
        encloser: *const u8,
        encloser_length: usize,
        query: *const u8,
        query_length: usize,
        space: *mut u8,
        space_length: usize,
    ) -> u64;

    pub fn qorshudan_read_types(
        bitmap: *const u8,
        bitmap_length: usize,
        types: *mut u16,
        types_count: usize,
    ) -> u64;

    pub fn qorshudan_write_types(
        types: *const u16,
        types_count: usize,
        space: *mut u8,
        space_length: usize,
    ) -> u64;

    pub fn qorshudan_has_type(bitmap: *const u8, bitmap_length: usize, of: u16) -> u64;

    pub fn qorshudan_count_types(bitmap: *const u8, bitmap_length: usize) -> u64;

    pub fn qorshudan_smallest_type(bitmap: *const u8, bitmap_length: usize) -> u64;

    pub fn qorshudan_largest_type(bitmap: *const u8, bitmap_length: usize) -> u64;

    pub fn qorshudan_check_owners(
        apex: *const u8,
        apex_length: usize,
        limit: u64,
        names: *const u8,
        names_length: usize,
        starts: *const u32,
        starts_count: usize,
    ) -> u64;

    pub fn qorshudan_find_owner(
        names: *const u8,
        names_length: usize,
        starts: *const u32,
        starts_count: usize,
        query: *const u8,
        query_length: usize,
    ) -> u64;
}

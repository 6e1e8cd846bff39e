//! DNS name arithmetic for online signers, as an independent second program: checking, the places of
//! labels, folding, comparing, the absolute and the modified neighbours in an alphabet, the sorting
//! key, names as text, questions in a batch, type bitmaps, hashes on their ring, closest enclosers,
//! lists of owners, and whole denials.
//!
//! It is written from the papers' definitions, over lists of labels and without any octet work in
//! place, so that it shares no way of working with the library it is compared with. The operations
//! take octets and answer, or refuse with the first number that applies. Where the library fills a
//! space, the operation here takes the space's length (`room`) and hands back the octets that would
//! be written.

#![forbid(unsafe_code)]

pub mod alphabet;
pub mod batch;
pub mod denial;
pub mod encloser;
pub mod hash;
pub mod key;
pub mod name;
pub mod owners;
pub mod refusal;
pub mod text;
pub mod types;
pub mod zone;

#[cfg(test)]
mod tests;

pub use alphabet::Alphabet;
pub use batch::{batch, write_question};
use encloser::Gap;
pub use encloser::Piece;
use hash::Hash;
pub use name::Name;
use owners::List;
pub use owners::{Found, Start};
pub use refusal::{Fault, Refusal};
use std::cmp::Ordering;
use zone::Zone;

/// The checked name, its octets unchanged.
pub fn check(name: &[u8]) -> Result<Name, Refusal> {
    Name::read(name).map_err(Refusal::Name)
}

/// The place of each label's length octet in the name, from the left. The room is counted in labels.
pub fn label_places(name: &[u8], room: usize) -> Result<Vec<u8>, Refusal> {
    fitting(check(name)?.label_places(), room)
}

/// The folded name.
pub fn fold(name: &[u8], room: usize) -> Result<Vec<u8>, Refusal> {
    fitting(check(name)?.folded().wire(), room)
}

/// Zero for equal folded names, otherwise 1 plus the number of labels shared from the right,
/// negative when the first name sorts earlier.
pub fn compare(first: &[u8], second: &[u8]) -> Result<i32, Refusal> {
    let first = check(first)?.folded();
    let second = Name::read(second).map_err(Refusal::SecondName)?.folded();
    let shared = i32::try_from(first.shared_labels(&second)).expect("a name has few labels");
    Ok(match first.canonical_order(&second) {
        Ordering::Less => -(1 + shared),
        Ordering::Equal => 0,
        Ordering::Greater => 1 + shared,
    })
}

/// The sorting key of the name.
pub fn write_key(name: &[u8], room: usize) -> Result<Vec<u8>, Refusal> {
    fitting(key::write(&check(name)?.folded()), room)
}

/// The folded name that has this key.
pub fn read_key(bytes: &[u8], room: usize) -> Result<Vec<u8>, Refusal> {
    let name = key::read(bytes).map_err(Refusal::NoKey)?;
    fitting(name.wire(), room)
}

/// The text of the folded name.
pub fn write_text(name: &[u8], room: usize) -> Result<Vec<u8>, Refusal> {
    fitting(text::write(&check(name)?.folded()), room)
}

/// The name of this text, letter case kept.
pub fn read_text(text: &[u8], room: usize) -> Result<Vec<u8>, Refusal> {
    let name = text::read(text).map_err(Refusal::NoText)?;
    fitting(name.wire(), room)
}

/// The types of this bitmap, strictly rising. The room is counted in types.
pub fn read_types(bitmap: &[u8], room: usize) -> Result<Vec<u16>, Refusal> {
    fitting(types_of(bitmap)?, room)
}

/// The bitmap of these types, which must strictly rise.
pub fn write_types(types: &[u16], room: usize) -> Result<Vec<u8>, Refusal> {
    fitting(types::write(types).map_err(Refusal::NoTypes)?, room)
}

/// Whether the type is one of this bitmap's.
pub fn has_type(bitmap: &[u8], wanted: u16) -> Result<bool, Refusal> {
    Ok(types_of(bitmap)?.contains(&wanted))
}

/// The number of this bitmap's types.
pub fn count_types(bitmap: &[u8]) -> Result<usize, Refusal> {
    Ok(types_of(bitmap)?.len())
}

/// The smallest type of this bitmap, or none.
pub fn smallest_type(bitmap: &[u8]) -> Result<Option<u16>, Refusal> {
    Ok(types_of(bitmap)?.into_iter().min())
}

/// The largest type of this bitmap, or none.
pub fn largest_type(bitmap: &[u8]) -> Result<Option<u16>, Refusal> {
    Ok(types_of(bitmap)?.into_iter().max())
}

fn types_of(bitmap: &[u8]) -> Result<Vec<u16>, Refusal> {
    types::read(bitmap).map_err(Refusal::NoTypes)
}

/// The hash after this one on the ring, which has 20 octets.
pub fn hash_after(hash: &[u8], room: usize) -> Result<Vec<u8>, Refusal> {
    fitting(hash_of(hash)?.after().octets(), room)
}

/// The hash before this one on the ring, which has 20 octets.
pub fn hash_before(hash: &[u8], room: usize) -> Result<Vec<u8>, Refusal> {
    fitting(hash_of(hash)?.before().octets(), room)
}

/// The owner label of this hash: 32 characters, no length octet.
pub fn write_hash_label(hash: &[u8], room: usize) -> Result<Vec<u8>, Refusal> {
    fitting(hash_of(hash)?.label(), room)
}

/// The hash that has this owner label, in either letter case, without a length octet.
pub fn read_hash_label(label: &[u8], room: usize) -> Result<Vec<u8>, Refusal> {
    let hash = Hash::of_label(label).ok_or(Refusal::NoHash)?;
    fitting(hash.octets(), room)
}

/// Whether the hash lies strictly between the first and the second on the ring, going up from the
/// first; if these are equal, every other hash does.
pub fn hash_between(first: &[u8], hash: &[u8], second: &[u8]) -> Result<bool, Refusal> {
    Ok(hash_of(hash)?.is_between(hash_of(first)?, hash_of(second)?))
}

fn hash_of(octets: &[u8]) -> Result<Hash, Refusal> {
    Hash::read(octets).ok_or(Refusal::NoHash)
}

/// The closest encloser of the query in the gap of the owner and the next name, as a piece of one
/// of the two. It is empty where one of the three is not well formed, or the query not in the gap.
pub fn closest_encloser(query: &[u8], owner: &[u8], next: &[u8]) -> Piece {
    match [query, owner, next].map(Name::read) {
        [Ok(query), Ok(owner), Ok(next)] => {
            Gap::new(owner.folded(), next.folded()).closest_encloser(&query.folded())
        }
        _ => Piece::EMPTY,
    }
}

/// The wildcard name `*` above the encloser, whose spelling is kept.
pub fn wildcard(encloser: &[u8], room: usize) -> Result<Vec<u8>, Refusal> {
    let answer = encloser::wildcard(&check(encloser)?).ok_or(Refusal::NameAboveLimit)?;
    fitting(answer.wire(), room)
}

/// How many octets of the query are its next closer name, the ancestor of it (or the query itself)
/// with one label more than the encloser. It is 0 where one of the two is not well formed, or the
/// encloser no proper ancestor of the query, letter case aside.
pub fn next_closer(encloser: &[u8], query: &[u8]) -> usize {
    match [encloser, query].map(Name::read) {
        [Ok(encloser), Ok(query)] => {
            let found = encloser::next_closer(&encloser.folded(), &query.folded());
            found.map_or(0, |name| name.length())
        }
        _ => 0,
    }
}

/// Whether all three are well formed and the name lies strictly between the owner and the next name
/// on the ring, as a resolver reads their record.
pub fn covers(owner: &[u8], next: &[u8], name: &[u8]) -> bool {
    match [owner, next, name].map(Name::read) {
        [Ok(owner), Ok(next), Ok(name)] => {
            Gap::new(owner.folded(), next.folded()).covers(&name.folded())
        }
        _ => false,
    }
}

/// The names of the gaps that deny the query below its closest encloser, the owner and the next name
/// of each: first the gap of the next closer name, then that of the wildcard, where this is another.
/// The room is for all of them.
pub fn denial(
    apex: &[u8],
    limit: u64,
    encloser: &[u8],
    query: &[u8],
    room: usize,
) -> Result<Vec<Vec<u8>>, Refusal> {
    let request = Request::read(apex, limit, query)?;
    let zone = request.zone(Alphabet::FULL)?;
    let encloser = Name::read(encloser).map_err(|_| Refusal::NoEncloser)?;
    let gaps = denial::gaps(&zone, &encloser.folded(), &request.name);
    let gaps = gaps.ok_or(Refusal::NoEncloser)?;
    let names: Vec<Vec<u8>> = gaps.iter().flat_map(Gap::names).map(Name::wire).collect();
    fitting(names.concat(), room)?;
    Ok(names)
}

/// The number of owners of a list, which must be one of this zone: the apex first, then members
/// that strictly rise, each written folded.
pub fn check_owners(
    apex: &[u8],
    limit: u64,
    names: &[u8],
    starts: &[Start],
) -> Result<usize, Refusal> {
    let (apex, limit) = apex_within(apex, limit)?;
    let zone = Zone::new(Alphabet::FULL, apex, limit);
    let checked = List::new(names, starts).check(&zone);
    checked.map_err(Refusal::NoOwners)
}

/// The last owner found not after the query by halving the list, and the number looked at.
pub fn find_owner(names: &[u8], starts: &[Start], query: &[u8]) -> Result<Found, Refusal> {
    let query = check(query)?.folded();
    let found = List::new(names, starts).find(&query);
    found.map_err(Refusal::NoOwners)
}

/// The greatest member of the zone before the name, or the last member when it is the apex.
pub fn predecessor(apex: &[u8], limit: u64, name: &[u8], room: usize) -> Result<Vec<u8>, Refusal> {
    predecessor_in(Alphabet::FULL, apex, limit, name, room)
}

/// The least member of the zone after the name, or the apex when it is the last member.
pub fn successor(apex: &[u8], limit: u64, name: &[u8], room: usize) -> Result<Vec<u8>, Refusal> {
    successor_in(Alphabet::FULL, apex, limit, name, room)
}

/// The greatest member of the short set before the name, or the last member when it is the apex.
pub fn modified_predecessor(
    apex: &[u8],
    limit: u64,
    name: &[u8],
    room: usize,
) -> Result<Vec<u8>, Refusal> {
    modified_predecessor_in(Alphabet::FULL, 1, apex, limit, name, room)
}

/// The least member of the short set after the name, or the apex.
pub fn modified_successor(
    apex: &[u8],
    limit: u64,
    name: &[u8],
    room: usize,
) -> Result<Vec<u8>, Refusal> {
    modified_successor_in(Alphabet::FULL, 1, apex, limit, name, room)
}

/// The same as [`predecessor`], in the zone's members that keep to the alphabet.
pub fn predecessor_in(
    alphabet: Alphabet,
    apex: &[u8],
    limit: u64,
    name: &[u8],
    room: usize,
) -> Result<Vec<u8>, Refusal> {
    let request = Request::read(apex, limit, name)?;
    let answer = request.zone(alphabet)?.predecessor(&request.name);
    fitting(answer.wire(), room)
}

/// The same as [`successor`], in the zone's members that keep to the alphabet.
pub fn successor_in(
    alphabet: Alphabet,
    apex: &[u8],
    limit: u64,
    name: &[u8],
    room: usize,
) -> Result<Vec<u8>, Refusal> {
    let request = Request::read(apex, limit, name)?;
    let answer = request.zone(alphabet)?.successor(&request.name);
    fitting(answer.wire(), room)
}

/// The least member that keeps to the alphabet, after the name and not under it, or the apex.
pub fn subtree_successor(
    alphabet: Alphabet,
    apex: &[u8],
    limit: u64,
    name: &[u8],
    room: usize,
) -> Result<Vec<u8>, Refusal> {
    let request = Request::read(apex, limit, name)?;
    let answer = request.zone(alphabet)?.subtree_successor(&request.name);
    fitting(answer.wire(), room)
}

/// The same as [`modified_predecessor`], in the members that keep to the alphabet and have at most
/// `depth` labels more than the apex, which are the short set of this depth.
pub fn modified_predecessor_in(
    alphabet: Alphabet,
    depth: u64,
    apex: &[u8],
    limit: u64,
    name: &[u8],
    room: usize,
) -> Result<Vec<u8>, Refusal> {
    let request = Request::read(apex, limit, name)?;
    let depth = request.allowed_depth(depth)?;
    let zone = request.zone(alphabet)?;
    let answer = zone.predecessor_in_short_set(depth, &request.name);
    fitting(answer.wire(), room)
}

/// The same as [`modified_successor`], in the members that keep to the alphabet and have at most
/// `depth` labels more than the apex, which are the short set of this depth.
pub fn modified_successor_in(
    alphabet: Alphabet,
    depth: u64,
    apex: &[u8],
    limit: u64,
    name: &[u8],
    room: usize,
) -> Result<Vec<u8>, Refusal> {
    let request = Request::read(apex, limit, name)?;
    let depth = request.allowed_depth(depth)?;
    let zone = request.zone(alphabet)?;
    let answer = zone.successor_in_short_set(depth, &request.name);
    fitting(answer.wire(), room)
}

/// What a neighbour is asked for: apex and name folded, all checks common to all of them passed.
struct Request {
    apex: Name,
    limit: usize,
    name: Name,
}

impl Request {
    fn read(apex: &[u8], limit: u64, name: &[u8]) -> Result<Request, Refusal> {
        let (apex, limit) = apex_within(apex, limit)?;
        let name = check(name)?.folded();
        if name.length() > limit {
            return Err(Refusal::NameAboveLimit);
        }
        if !name.is_at_or_under(&apex) {
            return Err(Refusal::NotUnderApex);
        }
        Ok(Request { apex, limit, name })
    }

    /// The depth, where it is 1 to 3 and the limit has so many of the longest labels to spare.
    fn allowed_depth(&self, depth: u64) -> Result<usize, Refusal> {
        if !(1..=3).contains(&depth) {
            return Err(Refusal::NoLabelToSpare);
        }
        let depth = usize::try_from(depth).expect("the depth is at most 3");
        if self.apex.length() + 64 * depth > self.limit {
            return Err(Refusal::NoLabelToSpare);
        }
        Ok(depth)
    }

    /// The zone in this alphabet, where the name keeps to it.
    fn zone(&self, alphabet: Alphabet) -> Result<Zone, Refusal> {
        let zone = Zone::new(alphabet, self.apex.clone(), self.limit);
        if !zone.is_in_alphabet(&self.name) {
            return Err(Refusal::NotInAlphabet);
        }
        Ok(zone)
    }
}

/// The folded apex and the limit, where the limit is 1 to 255 and leaves the two octets above the
/// apex that the shortest label takes.
fn apex_within(apex: &[u8], limit: u64) -> Result<(Name, usize), Refusal> {
    if !(1..=255).contains(&limit) {
        return Err(Refusal::Limit);
    }
    let limit = usize::try_from(limit).expect("the limit is at most 255");
    let apex = Name::read(apex).map_err(Refusal::Apex)?.folded();
    if apex.length() + 2 > limit {
        return Err(Refusal::ApexAboveLimit);
    }
    Ok((apex, limit))
}

fn fitting<T>(answer: Vec<T>, room: usize) -> Result<Vec<T>, Refusal> {
    if answer.len() > room {
        return Err(Refusal::NoRoom);
    }
    Ok(answer)
}

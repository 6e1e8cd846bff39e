//! The neighbours of a name in a zone, absolute and modified, in one of two alphabets and up to three labels deep.

use super::alphabet::{Alphabet, Full, Ldh};
use super::{answer_folded, put_folded, walk, well_formed, Refusal, MAX_LABEL, MAX_NAME};

/// Where a name of the zone stands over the apex.
struct Place<const DEPTH: usize> {
    /// The number of octets before the apex.
    above: usize,
    /// The starts of the last labels before the apex, the last one first, and `NONE` where there are fewer.
    last: [usize; DEPTH],
}

const NONE: usize = usize::MAX;

/// Refusals 1 to 6 and, where there is no 7, 12.
pub fn place<A: Alphabet>(apex: &[u8], limit: usize, name: &[u8]) -> Result<usize, Refusal> {
    let place = admitted::<0>(apex, limit, name)?;
    in_alphabet::<A, 0>(place, name).map(|place| place.above)
}

fn in_alphabet<A: Alphabet, const DEPTH: usize>(place: Place<DEPTH>, name: &[u8]) -> Result<Place<DEPTH>, Refusal> {
    if A::has_all(&name[..place.above]) {
        Ok(place)
    } else {
        Err(Refusal::NotInAlphabet)
    }
}

/// Refusals 1 to 3.
pub fn apex_within(apex: &[u8], limit: usize) -> Result<(), Refusal> {
    if !(1..=MAX_NAME).contains(&limit) {
        return Err(Refusal::BadLimit);
    }
    well_formed(apex).map_err(Refusal::BadApex)?;
    if apex.len() + 2 > limit {
        return Err(Refusal::ApexTooLong);
    }
    Ok(())
}

/// Refusals 1 to 6.
fn admitted<const DEPTH: usize>(apex: &[u8], limit: usize, name: &[u8]) -> Result<Place<DEPTH>, Refusal> {
    apex_within(apex, limit)?;
    let above = name.len().saturating_sub(apex.len());
    let (mut last, mut end) = ([NONE; DEPTH], 0);
    walk(name, |at, next| {
        if at < above {
            last = std::array::from_fn(|i| if i == 0 { at } else { last[i - 1] });
            end = next;
        }
    })
    .map_err(Refusal::BadName)?;
    if name.len() > limit {
        return Err(Refusal::NameTooLong);
    }
    if end == above && name[above..].eq_ignore_ascii_case(apex) {
        Ok(Place { above, last })
    } else {
        Err(Refusal::NotUnderApex)
    }
}

/// A name's first label and its parent.
fn split(name: &[u8]) -> (&[u8], &[u8]) {
    name[1..].split_at(usize::from(name[0]))
}

/// How many of `room` octets the greatest labels take: a single octet left over holds no label.
pub fn greatest(room: usize) -> usize {
    if room % (MAX_LABEL + 1) == 1 {
        room - 1
    } else {
        room
    }
}

/// Fills `out` with the greatest labels, the full ones last.
fn put_greatest<A: Alphabet>(out: &mut [u8]) {
    out.fill(A::GREATEST);
    let first = out.len() % (MAX_LABEL + 1);
    if first > 0 {
        out[0] = first as u8 - 1;
    }
    for size in out[first..].iter_mut().step_by(MAX_LABEL + 1) {
        *size = MAX_LABEL as u8;
    }
}

/// `front` octets of greatest labels, a label of `size` octets that begins with `kept` and `lowered`, and `rest`.
pub fn answer_before<A: Alphabet>(
    front: usize,
    (size, kept, lowered): (usize, &[u8], Option<u8>),
    rest: &[u8],
    space: &mut [u8],
) -> Result<usize, Refusal> {
    let len = front + 1 + size + rest.len();
    let out = space.get_mut(..len).ok_or(Refusal::NoRoom)?;
    let (front_out, out) = out.split_at_mut(front);
    put_greatest::<A>(front_out);
    let (label_out, rest_out) = out.split_at_mut(1 + size);
    label_out[0] = size as u8;
    let (kept_out, padding) = label_out[1..].split_at_mut(kept.len());
    put_folded(kept_out, kept);
    if let Some(octet) = lowered {
        padding.fill(A::GREATEST);
        padding[0] = octet;
    }
    put_folded(rest_out, rest);
    Ok(len)
}

/// `label` and the least octet before `rest`.
pub fn answer_lengthened<A: Alphabet>(label: &[u8], rest: &[u8], space: &mut [u8]) -> Result<usize, Refusal> {
    let len = label.len() + 2 + rest.len();
    let out = space.get_mut(..len).ok_or(Refusal::NoRoom)?;
    let (label_out, rest_out) = out.split_at_mut(label.len() + 2);
    label_out[0] = label.len() as u8 + 1;
    put_folded(&mut label_out[1..=label.len()], label);
    label_out[label.len() + 1] = A::LEAST;
    put_folded(rest_out, rest);
    Ok(len)
}

/// `label` with its octet at `last` raised and none after it, before `rest`.
pub fn answer_raised<A: Alphabet>(label: &[u8], last: usize, rest: &[u8], space: &mut [u8]) -> Result<usize, Refusal> {
    let len = last + 2 + rest.len();
    let out = space.get_mut(..len).ok_or(Refusal::NoRoom)?;
    let (label_out, rest_out) = out.split_at_mut(last + 2);
    label_out[0] = last as u8 + 1;
    put_folded(&mut label_out[1..=last], &label[..last]);
    label_out[last + 1] = A::raise(label[last].to_ascii_lowercase());
    put_folded(rest_out, rest);
    Ok(len)
}

fn predecessor_of<A: Alphabet>(apex: &[u8], limit: usize, name: &[u8], space: &mut [u8]) -> Result<usize, Refusal> {
    let above = place::<A>(apex, limit, name)?;
    if above == 0 {
        let front = greatest(limit - apex.len());
        let len = front + apex.len();
        let out = space.get_mut(..len).ok_or(Refusal::NoRoom)?;
        put_greatest::<A>(&mut out[..front]);
        put_folded(&mut out[front..], apex);
        return Ok(len);
    }
    before::<A>(limit, name, space)
}

/// The predecessor of a name that is not the apex.
#[inline(always)]
pub fn before<A: Alphabet>(limit: usize, name: &[u8], space: &mut [u8]) -> Result<usize, Refusal> {
    let (label, rest) = split(name);
    let (last, kept) = label.split_last().expect("no label is empty");
    let (size, lowered) = match last.to_ascii_lowercase() {
        least if least == A::LEAST && kept.is_empty() => return answer_folded(rest, space),
        least if least == A::LEAST => (kept.len(), None),
        octet => ((label.len() + limit - name.len()).min(MAX_LABEL), Some(A::lower(octet))),
    };
    let front = greatest(limit - 1 - size - rest.len());
    answer_before::<A>(front, (size, kept, lowered), rest, space)
}

fn successor_of<A: Alphabet>(apex: &[u8], limit: usize, name: &[u8], space: &mut [u8]) -> Result<usize, Refusal> {
    place::<A>(apex, limit, name)?;
    if name.len() + 2 <= limit {
        let len = name.len() + 2;
        let out = space.get_mut(..len).ok_or(Refusal::NoRoom)?;
        out[..2].copy_from_slice(&[1, A::LEAST]);
        put_folded(&mut out[2..], name);
        return Ok(len);
    }
    after_all_under::<A>(apex, limit, name, space)
}

fn subtree_successor_of<A: Alphabet>(
    apex: &[u8],
    limit: usize,
    name: &[u8],
    space: &mut [u8],
) -> Result<usize, Refusal> {
    place::<A>(apex, limit, name)?;
    after_all_under::<A>(apex, limit, name, space)
}

/// The first name after a name of the zone and all names under it.
#[inline(always)]
pub fn after_all_under<A: Alphabet>(
    apex: &[u8],
    limit: usize,
    name: &[u8],
    space: &mut [u8],
) -> Result<usize, Refusal> {
    let mut at = 0;
    while at < name.len() - apex.len() {
        let (label, rest) = split(&name[at..]);
        if label.len() < MAX_LABEL && name.len() - at < limit {
            return answer_lengthened::<A>(label, rest, space);
        }
        if let Some(last) = label.iter().rposition(|&octet| !A::is_greatest(octet)) {
            return answer_raised::<A>(label, last, rest, space);
        }
        at += 1 + label.len();
    }
    answer_folded(apex, space)
}

/// Refusals 1 to 7 and 12.
fn place_modified<A: Alphabet, const DEPTH: usize>(
    apex: &[u8],
    limit: usize,
    name: &[u8],
) -> Result<Place<DEPTH>, Refusal> {
    let place = admitted(apex, limit, name)?;
    if apex.len() + DEPTH * (1 + MAX_LABEL) > limit {
        return Err(Refusal::NoRoomAboveApex);
    }
    in_alphabet::<A, DEPTH>(place, name)
}

fn modified_predecessor_of<A: Alphabet, const DEPTH: usize>(
    apex: &[u8],
    limit: usize,
    name: &[u8],
    space: &mut [u8],
) -> Result<usize, Refusal> {
    let Place { above, last } = place_modified::<A, DEPTH>(apex, limit, name)?;
    let cut = last[DEPTH - 1];
    if cut != NONE && cut > 0 {
        return answer_folded(&name[cut..], space);
    }
    // What the depth leaves for greatest labels in front, which always fit.
    let front = |missing: usize| missing * (1 + MAX_LABEL);
    if above == 0 {
        return answer_before::<A>(front(DEPTH - 1), (MAX_LABEL, &[], Some(A::GREATEST)), apex, space);
    }
    let front = front(last.iter().filter(|&&start| start == NONE).count());
    let (label, rest) = split(name);
    let (last, kept) = label.split_last().expect("no label is empty");
    match last.to_ascii_lowercase() {
        least if least == A::LEAST && kept.is_empty() => answer_folded(rest, space),
        least if least == A::LEAST => answer_before::<A>(front, (kept.len(), kept, None), rest, space),
        octet => answer_before::<A>(front, (MAX_LABEL, kept, Some(A::lower(octet))), rest, space),
    }
}

fn modified_successor_of<A: Alphabet, const DEPTH: usize>(
    apex: &[u8],
    limit: usize,
    name: &[u8],
    space: &mut [u8],
) -> Result<usize, Refusal> {
    let Place { above, last } = place_modified::<A, DEPTH>(apex, limit, name)?;
    let mut at = last[DEPTH - 1];
    if at == NONE {
        return answer_lengthened::<A>(&[], name, space);
    }
    while at < above {
        let (label, rest) = split(&name[at..]);
        if label.len() < MAX_LABEL {
            return answer_lengthened::<A>(label, rest, space);
        }
        if let Some(last) = label.iter().rposition(|&octet| !A::is_greatest(octet)) {
            return answer_raised::<A>(label, last, rest, space);
        }
        at += 1 + MAX_LABEL;
    }
    answer_folded(apex, space)
}

macro_rules! absolute {
    ($plain:ident, $in:ident, $of:ident) => {
        #[inline(never)]
        pub fn $plain(apex: &[u8], limit: usize, name: &[u8], space: &mut [u8]) -> Result<usize, Refusal> {
            $of::<Full>(apex, limit, name, space)
        }

        /// In the full alphabet for 0, and in that of letters, digits and hyphens for any other number.
        #[inline(never)]
        pub fn $in(alphabet: u64, apex: &[u8], limit: usize, name: &[u8], space: &mut [u8]) -> Result<usize, Refusal> {
            match alphabet {
                0 => $of::<Full>(apex, limit, name, space),
                _ => $of::<Ldh>(apex, limit, name, space),
            }
        }
    };
}

macro_rules! modified {
    ($plain:ident, $in:ident, $of:ident) => {
        #[inline(never)]
        pub fn $plain(apex: &[u8], limit: usize, name: &[u8], space: &mut [u8]) -> Result<usize, Refusal> {
            $of::<Full, 1>(apex, limit, name, space)
        }

        /// The same, with a depth of 1 to 3.
        #[inline(never)]
        pub fn $in(
            alphabet: u64,
            depth: u64,
            apex: &[u8],
            limit: usize,
            name: &[u8],
            space: &mut [u8],
        ) -> Result<usize, Refusal> {
            match (alphabet, depth) {
                (0, 1) => $of::<Full, 1>(apex, limit, name, space),
                (0, 2) => $of::<Full, 2>(apex, limit, name, space),
                (0, 3) => $of::<Full, 3>(apex, limit, name, space),
                (_, 1) => $of::<Ldh, 1>(apex, limit, name, space),
                (_, 2) => $of::<Ldh, 2>(apex, limit, name, space),
                (_, 3) => $of::<Ldh, 3>(apex, limit, name, space),
                _ => admitted::<0>(apex, limit, name).and(Err(Refusal::NoRoomAboveApex)),
            }
        }
    };
}

absolute!(predecessor, predecessor_in, predecessor_of);
absolute!(successor, successor_in, successor_of);
modified!(modified_predecessor, modified_predecessor_in, modified_predecessor_of);
modified!(modified_successor, modified_successor_in, modified_successor_of);

/// The first name after the name and all names under it, or the apex; the alphabets as above.
#[inline(never)]
pub fn subtree_successor(
    alphabet: u64,
    apex: &[u8],
    limit: usize,
    name: &[u8],
    space: &mut [u8],
) -> Result<usize, Refusal> {
    match alphabet {
        0 => subtree_successor_of::<Full>(apex, limit, name, space),
        _ => subtree_successor_of::<Ldh>(apex, limit, name, space),
    }
}

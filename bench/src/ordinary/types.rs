//! Type bitmaps: read, written, and asked.

use super::Refusal;

/// Whether octets are a bitmap; else the place where none goes on.
fn check(bitmap: &[u8]) -> Result<(), Refusal> {
    let (mut at, mut least) = (0, 0);
    while at < bitmap.len() {
        if u16::from(bitmap[at]) < least {
            return Err(Refusal::NotASet(at));
        }
        let Some(&count @ 1..=32) = bitmap.get(at + 1) else { return Err(Refusal::NotASet(at + 1)) };
        let end = at + 2 + usize::from(count);
        match bitmap.get(end - 1) {
            None => return Err(Refusal::NotASet(bitmap.len())),
            Some(0) => return Err(Refusal::NotASet(end - 1)),
            Some(_) => {}
        }
        least = u16::from(bitmap[at]) + 1;
        at = end;
    }
    Ok(())
}

/// The windows of a bitmap: the first type of each, and its octets.
fn windows(bitmap: &[u8]) -> impl Iterator<Item = (u16, &[u8])> {
    let mut rest = bitmap;
    std::iter::from_fn(move || {
        let [number, count, after @ ..] = rest else { return None };
        let (octets, more) = after.split_at(usize::from(*count));
        rest = more;
        Some((u16::from(*number) << 8, octets))
    })
}

fn count(bitmap: &[u8]) -> usize {
    let ones = |octets: &[u8]| octets.iter().map(|octet| octet.count_ones() as usize).sum::<usize>();
    windows(bitmap).map(|(_, octets)| ones(octets)).sum()
}

#[inline(never)]
pub fn read_types(bitmap: &[u8], types: &mut [u16]) -> Result<usize, Refusal> {
    check(bitmap)?;
    let count = count(bitmap);
    let mut places = types.get_mut(..count).ok_or(Refusal::NoRoom)?.iter_mut();
    for (window, octets) in windows(bitmap) {
        for (index, &octet) in octets.iter().enumerate() {
            let first = window + 8 * index as u16;
            let mut left = octet;
            while left != 0 {
                let zeros = left.leading_zeros();
                *places.next().expect("there is a place for each type") = first + zeros as u16;
                left ^= 128 >> zeros;
            }
        }
    }
    Ok(count)
}

#[inline(never)]
pub fn write_types(types: &[u16], space: &mut [u8]) -> Result<usize, Refusal> {
    if let Some(before) = types.windows(2).position(|two| two[1] <= two[0]) {
        return Err(Refusal::NotASet(before + 1));
    }
    let octets = |window: &[u16]| usize::from(window[window.len() - 1] % 256 / 8) + 1;
    let windows = || types.chunk_by(|one, other| one / 256 == other / 256);
    let length = windows().map(|window| 2 + octets(window)).sum();
    let mut rest = space.get_mut(..length).ok_or(Refusal::NoRoom)?;
    for window in windows() {
        let (front, after) = rest.split_at_mut(2 + octets(window));
        front[0] = (window[0] / 256) as u8;
        front[1] = octets(window) as u8;
        front[2..].fill(0);
        for of in window {
            front[2 + usize::from(of % 256 / 8)] |= 128 >> (of % 8);
        }
        rest = after;
    }
    Ok(length)
}

#[inline(never)]
pub fn has_type(bitmap: &[u8], of: u16) -> Result<bool, Refusal> {
    check(bitmap)?;
    let window = windows(bitmap).find(|(first, _)| *first == of & 0xff00);
    let octet = window.and_then(|(_, octets)| octets.get(usize::from(of % 256 / 8)));
    Ok(octet.is_some_and(|octet| octet & 128 >> (of % 8) != 0))
}

#[inline(never)]
pub fn count_types(bitmap: &[u8]) -> Result<usize, Refusal> {
    check(bitmap)?;
    Ok(count(bitmap))
}

#[inline(never)]
pub fn smallest_type(bitmap: &[u8]) -> Result<Option<u16>, Refusal> {
    check(bitmap)?;
    Ok(windows(bitmap).next().and_then(|(first, octets)| {
        let place = octets.iter().position(|&octet| octet != 0)?;
        Some(first + 8 * place as u16 + octets[place].leading_zeros() as u16)
    }))
}

#[inline(never)]
pub fn largest_type(bitmap: &[u8]) -> Result<Option<u16>, Refusal> {
    check(bitmap)?;
    Ok(windows(bitmap).last().map(|(first, octets)| {
        let place = octets.len() - 1;
        first + 8 * place as u16 + 7 - octets[place].trailing_zeros() as u16
    }))
}

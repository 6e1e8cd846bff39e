//! The sorting key, written and read.

use super::{label, starts, Refusal, MAX_LABEL, MAX_NAME};

#[inline(never)]
pub fn write_key(name: &[u8], space: &mut [u8]) -> Result<usize, Refusal> {
    let (starts, count) = starts(name).map_err(Refusal::BadName)?;
    let labels = starts[..count].iter().rev().map(|&start| label(name, start));
    let escaped: usize = labels.clone().map(|label| label.iter().filter(|&&octet| octet < 2).count()).sum();
    let len = name.len() - 1 + escaped;
    let out = space.get_mut(..len).ok_or(Refusal::NoRoom)?;
    let mut end = 0;
    for label in labels {
        for &octet in label {
            if octet < 2 {
                out[end] = 1;
                out[end + 1] = octet + 1;
                end += 2;
            } else {
                out[end] = octet.to_ascii_lowercase();
                end += 1;
            }
        }
        out[end] = 0;
        end += 1;
    }
    Ok(len)
}

/// The length of the name whose key this is, or else the place where the octets stop beginning any key.
fn measure_key(key: &[u8]) -> Result<usize, usize> {
    let (mut len, mut size, mut at) = (1, 0, 0);
    while at < key.len() {
        let octet = key[at];
        if octet == 0 {
            if size == 0 {
                return Err(at);
            }
            len += 1 + size;
            size = 0;
        } else {
            if octet.is_ascii_uppercase() || size == MAX_LABEL || len + size + 2 > MAX_NAME {
                return Err(at);
            }
            if octet == 1 {
                at += 1;
                if !matches!(key.get(at), Some(1 | 2)) {
                    return Err(at);
                }
            }
            size += 1;
        }
        at += 1;
    }
    if size == 0 {
        Ok(len)
    } else {
        Err(key.len())
    }
}

#[inline(never)]
pub fn read_key(key: &[u8], space: &mut [u8]) -> Result<usize, Refusal> {
    let len = measure_key(key).map_err(Refusal::NotAKey)?;
    let out = space.get_mut(..len).ok_or(Refusal::NoRoom)?;
    let mut start = len - 1;
    out[start] = 0;
    let mut key = key;
    while !key.is_empty() {
        let (mut size, mut end) = (0, 0);
        while key[end] != 0 {
            end += if key[end] == 1 { 2 } else { 1 };
            size += 1;
        }
        let mut codes = key[..end].iter();
        for octet in &mut out[start - size..start] {
            *octet = match codes.next() {
                Some(1) => codes.next().map_or(0, |code| code - 1),
                Some(&code) => code,
                None => 0,
            };
        }
        start -= size + 1;
        out[start] = size as u8;
        key = &key[end + 1..];
    }
    Ok(len)
}

//! Packets, with payloads that share their memory.
use crate::wire::Name;
use bytes::{Buf, BufMut, Bytes};

#[derive(Clone)]
pub struct Packet {
    pub ptype: u64,
    pub name: Name,
    pub payload: Bytes,
    pub status: u32,
}

fn put_varint(out: &mut Vec<u8>, mut value: u64) {
    while value >= 0x80 {
        out.put_u8(value as u8 | 0x80);
        value >>= 7;
    }
    out.put_u8(value as u8);
}

fn put_number(out: &mut Vec<u8>, field: u8, value: u64) {
    if value != 0 {
        out.put_u8(field << 3);
        put_varint(out, value);
    }
}

pub fn put_packet(out: &mut Vec<u8>, p: &Packet) {
    put_number(out, 1, p.ptype);
    put_number(out, 2, p.name.channel.into());
    for (field, value) in [(3, p.name.service), (4, p.name.method)] {
        if value != 0 {
            out.put_u8(field << 3 | 5);
            out.put_u32_le(value);
        }
    }
    if !p.payload.is_empty() {
        out.put_u8(5 << 3 | 2);
        put_varint(out, p.payload.len() as u64);
        out.put_slice(&p.payload);
    }
    put_number(out, 6, p.status.into());
    put_number(out, 7, p.name.call.into());
}

fn get_varint(bytes: &mut &[u8]) -> Option<u64> {
    let mut value = 0u64;
    for i in 0..10 {
        let (first, rest) = bytes.split_first()?;
        *bytes = rest;
        if i == 9 && *first > 1 {
            return None;
        }
        value |= u64::from(first & 0x7f) << (7 * i);
        if first & 0x80 == 0 {
            return Some(value);
        }
    }
    None
}

fn get<'a>(bytes: &mut &'a [u8], n: u64) -> Option<&'a [u8]> {
    let n = usize::try_from(n).ok().filter(|n| *n <= bytes.len())?;
    let (front, rest) = bytes.split_at(n);
    *bytes = rest;
    Some(front)
}

fn get_word(bytes: &mut &[u8]) -> Option<u32> {
    Some(get(bytes, 4)?.get_u32_le())
}

pub fn read_packet(mut bytes: &[u8]) -> Option<Packet> {
    let (mut ptype, mut name, mut payload, mut status) = (0, Name::default(), &[][..], 0);
    while !bytes.is_empty() {
        let tag = u32::try_from(get_varint(&mut bytes)?).ok()?;
        match (tag >> 3, tag & 7) {
            (0, _) => return None,
            (1, 0) => ptype = get_varint(&mut bytes)?,
            (2, 0) => name.channel = u32::try_from(get_varint(&mut bytes)?).ok()?,
            (3, 5) => name.service = get_word(&mut bytes)?,
            (4, 5) => name.method = get_word(&mut bytes)?,
            (5, 2) => {
                let n = get_varint(&mut bytes)?;
                payload = get(&mut bytes, n)?;
            }
            (6, 0) => status = u32::try_from(get_varint(&mut bytes)?).ok()?,
            (7, 0) => name.call = u32::try_from(get_varint(&mut bytes)?).ok()?,
            (1..=7, _) => return None,
            (_, 0) => drop(get_varint(&mut bytes)?),
            (_, 1) => drop(get(&mut bytes, 8)?),
            (_, 2) => {
                let n = get_varint(&mut bytes)?;
                get(&mut bytes, n)?;
            }
            (_, 5) => drop(get_word(&mut bytes)?),
            _ => return None,
        }
    }
    Some(Packet { ptype, name, payload: Bytes::copy_from_slice(payload), status })
}

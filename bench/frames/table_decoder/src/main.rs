//! A second plain decoder of frames: it searches for flags and escapes with memchr, and checks with the tables of crc32fast,
//! sixteen bytes a step, without SIMD. It finds the same faults in the same order as the measured one, and prints how many
//! frames and faults a stream has and the octets of payload in all.
use std::{env, fs};

use crc32fast::Hasher;
use memchr::{memchr, memchr2};

const LIMIT: usize = 8192;

#[derive(Default)]
struct Counts {
    frames: u64,
    faults: u64,
    payload: u64,
}

/// The content that a segment's text stands for, or `None` at a bad escape. What is past the limit is looked at and not kept.
fn unescape(text: &[u8], content: &mut Vec<u8>) -> Option<bool> {
    content.clear();
    let mut rest = text;
    let mut is_long = false;
    let mut keep = |content: &mut Vec<u8>, run: &[u8]| {
        let room = LIMIT - content.len();
        is_long |= run.len() > room;
        content.extend_from_slice(&run[..run.len().min(room)]);
    };
    while let Some(at) = memchr(0x7D, rest) {
        keep(content, &rest[..at]);
        let octet = *rest.get(at + 1)?;
        if octet == 0x7D {
            return None;
        }
        keep(content, &[octet ^ 0x20]);
        rest = &rest[at + 2..];
    }
    keep(content, rest);
    Some(is_long)
}

/// The octets of payload, or `None` at a fault.
fn judge(content: &[u8], is_long: bool) -> Option<usize> {
    if is_long || content.len() > LIMIT || content.len() < 6 {
        return None;
    }
    let (head, check) = content.split_at(content.len() - 4);
    let mut hasher = Hasher::internal_new_baseline(0, 0);
    hasher.update(head);
    if check != hasher.finalize().to_le_bytes() {
        return None;
    }
    let mut address = 0u64;
    for (i, octet) in head.iter().take(5).enumerate() {
        address |= u64::from(octet >> 1) << (7 * i);
        if octet & 1 == 1 {
            return if i + 1 < head.len() && address >> 32 == 0 { Some(head.len() - i - 2) } else { None };
        }
    }
    None
}

fn decode(stream: &[u8], content: &mut Vec<u8>) -> Counts {
    let mut counts = Counts::default();
    let Some(first) = memchr(0x7E, stream) else { return counts };
    let mut rest = &stream[first + 1..];
    loop {
        // up to the first escape the content is the text itself
        let Some(mut end) = memchr2(0x7E, 0x7D, rest) else { return counts };
        let is_bare = rest[end] == 0x7E;
        if !is_bare {
            let Some(more) = memchr(0x7E, &rest[end..]) else { return counts };
            end += more;
        }
        let text = &rest[..end];
        rest = &rest[end + 1..];
        if text.is_empty() {
            continue;
        }
        let payload = if is_bare {
            judge(text, false)
        } else {
            unescape(text, content).and_then(|is_long| judge(content, is_long))
        };
        match payload {
            Some(len) => {
                counts.frames += 1;
                counts.payload += len as u64;
            }
            None => counts.faults += 1,
        }
    }
}

fn main() {
    let words: Vec<String> = env::args().collect();
    let stream = fs::read(&words[1]).expect("the file is read");
    let mut content = Vec::with_capacity(LIMIT);
    let mut counts = Counts::default();
    for _ in 0..words[2].parse::<u32>().expect("a number of rounds") {
        counts = decode(&stream, &mut content);
    }
    println!("frames {} faults {} payload {}", counts.frames, counts.faults, counts.payload);
}

//! Streams of calls for the plain servers of the benches to hear.
use crate::wire::Name;

const REQUEST: u64 = 0;
const CLIENT_STREAM: u64 = 2;
const COMPLETION: u64 = 8;

/// A name's id, as pw_tokenizer makes it.
pub fn hash_name(name: &str) -> u32 {
    let mut power = 1u32;
    let mut sum = name.len() as u32;
    for byte in name.bytes() {
        power = power.wrapping_mul(65_599);
        sum = sum.wrapping_add(u32::from(byte).wrapping_mul(power));
    }
    sum
}

fn demo_name(method: &str, call: u32) -> Name {
    Name { channel: 1, service: hash_name("demo.Demo"), method: hash_name(method), call }
}

/// Calls of Echo, each with its number. `put` gets the type, the name and the payload of each packet in turn.
pub fn echo(n: u32, mut put: impl FnMut(u64, Name, &[u8])) {
    for i in 0..n {
        put(REQUEST, demo_name("Echo", i + 1), &i.to_be_bytes());
    }
}

/// Calls of Chat that are left open.
pub fn open(n: u32, mut put: impl FnMut(u64, Name, &[u8])) {
    for i in 0..n {
        put(REQUEST, demo_name("Chat", i + 1), &[]);
    }
}

/// The calls of `load`, of all four methods by turns.
pub fn load(n: u32, seed: u64, mut put: impl FnMut(u64, Name, &[u8])) {
    let mut x = seed;
    for i in 0..n {
        x = x.wrapping_mul(6_364_136_223_846_793_005).wrapping_add(1_442_695_040_888_963_407);
        let top: [u8; 3] = x.to_be_bytes()[..3].try_into().unwrap();
        let mut put = |ptype, method: &str, payload: &[u8]| put(ptype, demo_name(method, i + 1), payload);
        match i % 4 {
            0 => put(REQUEST, "Echo", &top),
            1 => put(REQUEST, "Count", &[1 + ((x >> 32) % 64) as u8]),
            kind => {
                let method = if kind == 2 { "Sum" } else { "Chat" };
                put(REQUEST, method, &[]);
                for byte in top {
                    put(CLIENT_STREAM, method, &[byte]);
                }
                put(COMPLETION, method, &[]);
            }
        }
    }
}

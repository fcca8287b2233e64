//! The plain server once more, on crates that are made for it: hashbrown, slab, bytes, memchr and the tables of crc32fast without
//! SIMD. It writes each reply as it comes, and keeps nothing of a call that has ended; with the word `keep` in front it keeps each
//! packet that came or went and an entry for each step, as the program has to, and tells their number on standard error.
//!
//! crates_server [keep] raw < recording   serves a recorded stream
//! crates_server [keep] load N SEED       serves a stream made from a number, and prints its four lines
use std::io::{self, Read, Write};

use bytes::Bytes;
use crc32fast::Hasher;
use hashbrown::HashMap;
use memchr::{memchr, memchr2};
use packets::{Packet, put_packet, read_packet};
use recordings::hash_name;
use slab::Slab;
use wire::{ADDRESS, CONTROL, FLAG, Name};

mod packets;
#[path = "../../../plain/recordings.rs"]
#[allow(dead_code)]
mod recordings;
#[path = "../../../plain/wire.rs"]
#[allow(dead_code)]
mod wire;

const ESCAPE: u8 = 0x7d;
const LIMIT: usize = 8_192;
const MAX_PAYLOAD: usize = 8_000;

const REQUEST: u64 = 0;
const RESPONSE: u64 = 1;
const CLIENT_STREAM: u64 = 2;
const CLIENT_ERROR: u64 = 4;
const SERVER_ERROR: u64 = 5;
const SERVER_STREAM: u64 = 7;
const COMPLETION: u64 = 8;

const OK: u32 = 0;
const INVALID_ARGUMENT: u32 = 3;
const NOT_FOUND: u32 = 5;
const RESOURCE_EXHAUSTED: u32 = 8;
const FAILED_PRECONDITION: u32 = 9;
const UNAVAILABLE: u32 = 14;

#[derive(Clone, Copy, PartialEq)]
enum Method {
    Echo,
    Count,
    Sum,
    Chat,
}

struct Call {
    number: u32,
    method: Method,
    completed: bool,
    total: u64,
}

#[allow(dead_code)]
enum Step {
    Arrive(Packet),
    Start(u32),
    Finish(u32, Bytes),
    Flush,
    EndIn,
}

#[allow(dead_code)]
struct Entry {
    seat: u32,
    step: Step,
}

#[derive(Default)]
struct Kept {
    journal: Vec<Entry>,
    sent: Vec<Packet>,
}

struct Server {
    kept: Option<Kept>,
    methods: HashMap<(u32, u32), Method>,
    calls: Slab<Call>,
    live: HashMap<Name, usize>,
    opened: u32,
    packets: usize,
    payload: usize,
    out: Vec<u8>,
    content: Vec<u8>,
}

impl Server {
    fn new(keeps: bool) -> Server {
        let service = hash_name("demo.Demo");
        let methods = [("Echo", Method::Echo), ("Count", Method::Count), ("Sum", Method::Sum), ("Chat", Method::Chat)];
        Server {
            kept: keeps.then(Kept::default),
            methods: methods.iter().map(|(name, m)| ((service, hash_name(name)), *m)).collect(),
            calls: Slab::new(),
            live: HashMap::new(),
            opened: 0,
            packets: 0,
            payload: 0,
            out: Vec::new(),
            content: Vec::new(),
        }
    }

    fn keep(&mut self, seat: u32, step: impl FnOnce() -> Step) {
        if let Some(kept) = &mut self.kept {
            kept.journal.push(Entry { seat, step: step() });
        }
    }

    // A run of a call: what it says follows.
    fn keep_run(&mut self, number: u32, said: &Bytes) {
        self.keep(2, || Step::Start(number));
        self.keep(2, || Step::Finish(number, said.clone()));
    }

    // Each call that is open at the end of the input is told so.
    fn end_in(&mut self) {
        self.keep(0, || Step::EndIn);
        let mut open: Vec<u32> = self.calls.iter().map(|(_, call)| call.number).collect();
        open.sort_unstable();
        for number in open {
            self.keep_run(number, &Bytes::new());
        }
        if let Some(kept) = &self.kept {
            eprintln!("entries {} packets {}", kept.journal.len(), kept.sent.len());
        }
    }

    fn segment(&mut self, content: &[u8]) {
        let Some(payload) = payload_of(content) else {
            return;
        };
        if let Some(p) = read_packet(payload).filter(is_heard) {
            self.arrive(p);
        }
    }

    fn send(&mut self, ptype: u64, name: Name, payload: Bytes, status: u32) {
        self.keep(1, || Step::Flush);
        self.packets += 1;
        self.payload += payload.len();
        let packet = Packet { ptype, name, payload, status };
        put_frame(&mut self.out, &mut self.content, &packet);
        if let Some(kept) = &mut self.kept {
            kept.sent.push(packet);
        }
    }

    fn refuse(&mut self, name: Name, status: u32) {
        self.send(SERVER_ERROR, name, Bytes::new(), status);
    }

    fn respond(&mut self, key: usize, name: Name, status: u32, payload: Bytes) {
        self.send(RESPONSE, name, payload, status);
        self.end(key, name);
    }

    fn end(&mut self, key: usize, name: Name) {
        self.calls.remove(key);
        self.live.remove(&name);
    }

    fn arrive(&mut self, p: Packet) {
        self.keep(0, || Step::Arrive(p.clone()));
        let is_in = (1..=8).contains(&p.name.channel);
        let method = self.methods.get(&(p.name.service, p.name.method)).copied();
        let live = self.live.get(&p.name).copied();
        if p.ptype == CLIENT_ERROR {
            if let (true, Some(_), Some(key)) = (is_in, method, live) {
                self.end(key, p.name);
            }
            return;
        }
        if !is_in {
            return self.refuse(p.name, UNAVAILABLE);
        }
        let Some(method) = method else {
            return self.refuse(p.name, NOT_FOUND);
        };
        if p.ptype == REQUEST {
            if let Some(key) = live {
                self.end(key, p.name);
            }
            let key = self.calls.insert(Call { number: self.opened, method, completed: false, total: 0 });
            self.opened += 1;
            self.live.insert(p.name, key);
            return self.request(key, p.name, p.payload);
        }
        let Some(key) = live else {
            return self.refuse(p.name, FAILED_PRECONDITION);
        };
        let completed = self.calls[key].completed;
        if p.ptype == CLIENT_STREAM {
            match method {
                Method::Echo | Method::Count => self.refuse(p.name, INVALID_ARGUMENT),
                _ if completed => self.refuse(p.name, FAILED_PRECONDITION),
                _ => self.message(key, p.name, p.payload),
            }
        } else if method != Method::Echo && !completed {
            self.calls[key].completed = true;
            self.complete(key, p.name);
        }
    }

    fn request(&mut self, key: usize, name: Name, payload: Bytes) {
        self.keep_run(self.calls[key].number, &payload);
        match self.calls[key].method {
            Method::Echo if payload.len() > MAX_PAYLOAD => self.respond(key, name, RESOURCE_EXHAUSTED, Bytes::new()),
            Method::Echo => self.respond(key, name, OK, payload),
            Method::Count => match payload[..] {
                [n] if n <= 64 => {
                    for i in 1..=n {
                        self.send(SERVER_STREAM, name, Bytes::copy_from_slice(&[i]), OK);
                    }
                    self.respond(key, name, OK, Bytes::new());
                }
                _ => self.respond(key, name, INVALID_ARGUMENT, Bytes::new()),
            },
            Method::Sum | Method::Chat => {}
        }
    }

    fn message(&mut self, key: usize, name: Name, payload: Bytes) {
        self.keep_run(self.calls[key].number, &payload);
        let call = &mut self.calls[key];
        if call.method == Method::Sum {
            let sum = payload.iter().fold(0u64, |sum, b| sum.wrapping_add(u64::from(*b)));
            call.total = call.total.wrapping_add(sum);
        } else if payload.len() > MAX_PAYLOAD {
            self.respond(key, name, RESOURCE_EXHAUSTED, Bytes::new());
        } else {
            self.send(SERVER_STREAM, name, payload, OK);
        }
    }

    fn complete(&mut self, key: usize, name: Name) {
        self.keep_run(self.calls[key].number, &Bytes::new());
        let Call { method, total, .. } = self.calls[key];
        match method {
            Method::Sum => self.respond(key, name, OK, Bytes::copy_from_slice(&total.to_be_bytes())),
            Method::Chat => self.respond(key, name, OK, Bytes::new()),
            Method::Echo | Method::Count => {}
        }
    }
}

fn is_heard(p: &Packet) -> bool {
    let Name { channel, service, method, .. } = p.name;
    matches!(p.ptype, REQUEST | CLIENT_STREAM | CLIENT_ERROR | COMPLETION) && channel != 0 && service != 0 && method != 0
}

// ---- frames

#[derive(Default)]
struct Decoder {
    begun: bool,
    text: Vec<u8>,
    content: Vec<u8>,
}

impl Decoder {
    fn feed(&mut self, piece: &[u8], server: &mut Server) {
        let mut rest = piece;
        while let Some(at) = memchr(FLAG, rest) {
            let run = &rest[..at];
            if self.begun && self.text.is_empty() {
                if !run.is_empty() {
                    judge(run, &mut self.content, server);
                }
            } else if self.begun {
                self.text.extend_from_slice(run);
                judge(&self.text, &mut self.content, server);
                self.text.clear();
            }
            self.begun = true;
            rest = &rest[at + 1..];
        }
        if self.begun {
            self.text.extend_from_slice(rest);
        }
    }
}

fn judge(text: &[u8], content: &mut Vec<u8>, server: &mut Server) {
    if memchr(ESCAPE, text).is_none() {
        return server.segment(text);
    }
    if unescape(text, content).is_some() {
        server.segment(content);
    }
}

fn unescape(text: &[u8], content: &mut Vec<u8>) -> Option<()> {
    content.clear();
    let mut rest = text;
    while let Some(at) = memchr(ESCAPE, rest) {
        content.extend_from_slice(&rest[..at]);
        let octet = *rest.get(at + 1)?;
        if octet == ESCAPE {
            return None;
        }
        content.push(octet ^ 0x20);
        rest = &rest[at + 2..];
    }
    content.extend_from_slice(rest);
    Some(())
}

fn check_of(content: &[u8]) -> [u8; 4] {
    let mut hasher = Hasher::internal_new_baseline(0, 0);
    hasher.update(content);
    hasher.finalize().to_le_bytes()
}

// The payload of a frame for this server.
fn payload_of(content: &[u8]) -> Option<&[u8]> {
    if content.len() > LIMIT || content.len() < 6 {
        return None;
    }
    let (head, check) = content.split_at(content.len() - 4);
    if check_of(head) != check {
        return None;
    }
    let mut address = 0;
    for (i, octet) in head.iter().take(5).enumerate() {
        address |= u64::from(octet >> 1) << (7 * i);
        if octet & 1 == 1 {
            let control = *head.get(i + 1)?;
            return (address == ADDRESS && control == CONTROL).then(|| &head[i + 2..]);
        }
    }
    None
}

fn put_frame(out: &mut Vec<u8>, content: &mut Vec<u8>, p: &Packet) {
    content.clear();
    content.extend_from_slice(&[(ADDRESS as u8) << 1 | 1, CONTROL]);
    put_packet(content, p);
    let check = check_of(content);
    content.extend_from_slice(&check);
    out.push(FLAG);
    let mut rest = &content[..];
    while let Some(at) = memchr2(FLAG, ESCAPE, rest) {
        out.extend_from_slice(&rest[..at]);
        out.extend_from_slice(&[ESCAPE, rest[at] ^ 0x20]);
        rest = &rest[at + 1..];
    }
    out.extend_from_slice(rest);
    out.push(FLAG);
}

fn main() -> io::Result<()> {
    let words: Vec<String> = std::env::args().skip(1).collect();
    let mut words: Vec<&str> = words.iter().map(String::as_str).collect();
    let keeps = words.first() == Some(&"keep");
    if keeps {
        words.remove(0);
    }
    let (mut server, mut decoder) = (Server::new(keeps), Decoder::default());
    match words[..] {
        ["load", n, seed] => {
            let (mut stream, mut content) = (Vec::new(), Vec::new());
            recordings::load(n.parse().unwrap(), seed.parse().unwrap(), |ptype, name, payload| {
                put_frame(&mut stream, &mut content, &Packet { ptype, name, payload: Bytes::copy_from_slice(payload), status: 0 });
            });
            decoder.feed(&stream, &mut server);
            server.end_in();
            let Server { opened, packets, payload, .. } = server;
            print!("load {n} {seed}\ncalls {opened}\npackets {packets}\npayload {payload}\n");
            Ok(())
        }
        ["raw"] => {
            let mut piece = vec![0; 65_536];
            loop {
                match io::stdin().read(&mut piece)? {
                    0 => break,
                    n => decoder.feed(&piece[..n], &mut server),
                }
            }
            server.end_in();
            io::stdout().write_all(&server.out)
        }
        _ => std::process::exit(2),
    }
}

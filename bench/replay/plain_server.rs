//! A plain server of the demo service, with nothing proved: what the bench measures the program against, and what its
//! outputs are compared with. It keeps no journal, but with the word `keep` in front: then it keeps each packet that came and an
//! entry for each step, as the program has to, and tells their number at the end on standard error.
//!
//! plain_server [keep] report|raw < recording   serves a recorded stream
//! plain_server [keep] load N SEED               serves a stream made from a number, and prints its four lines
//! plain_server recording echo N | load N SEED   writes such a stream
//! plain_server recording open N                 writes one that leaves N calls of Chat open
use std::collections::HashMap;
use std::io::{self, Read, Write};
use recordings::hash_name;
use wire::{ADDRESS, CONTROL, Crc, FLAG, Name, Packet, put_frame, read_packet, read_segment};

#[path = "../plain/recordings.rs"]
mod recordings;
#[path = "../plain/wire.rs"]
mod wire;

const MAX_PAYLOAD: usize = 8_000;

const REQUEST: u64 = 0;
const RESPONSE: u64 = 1;
const CLIENT_STREAM: u64 = 2;
const CLIENT_ERROR: u64 = 4;
const SERVER_ERROR: u64 = 5;
const SERVER_STREAM: u64 = 7;
const COMPLETION: u64 = 8;

const OK: u32 = 0;
const CANCELLED: u32 = 1;
const UNKNOWN: u32 = 2;
const INVALID_ARGUMENT: u32 = 3;
const NOT_FOUND: u32 = 5;
const RESOURCE_EXHAUSTED: u32 = 8;
const FAILED_PRECONDITION: u32 = 9;
const UNAVAILABLE: u32 = 14;
const STATUSES: [&str; 17] = [
    "OK", "CANCELLED", "UNKNOWN", "INVALID_ARGUMENT", "DEADLINE_EXCEEDED", "NOT_FOUND", "ALREADY_EXISTS",
    "PERMISSION_DENIED", "RESOURCE_EXHAUSTED", "FAILED_PRECONDITION", "ABORTED", "OUT_OF_RANGE", "UNIMPLEMENTED",
    "INTERNAL", "UNAVAILABLE", "DATA_LOSS", "UNAUTHENTICATED",
];

// ---- the demo service and its table of calls

#[derive(Clone, Copy, PartialEq)]
enum Method {
    Echo,
    Count,
    Sum,
    Chat,
}

struct Call {
    name: Name,
    method: Method,
    completed: bool,
    total: u64,
    status: Option<u32>,
}

#[derive(Default)]
struct Counts {
    valid: u64,
    bad: u64,
    other: u64,
    dropped: u64,
}

// A step of the program's table, of the same size there: a whole packet, or the number of a call and what a run of it said.
#[allow(dead_code)]
enum Step {
    Arrive(Packet),
    Start(usize),
    Finish(usize, Vec<Vec<u8>>),
    Flush,
    EndIn,
}

#[allow(dead_code)]
struct Entry {
    seat: u32,
    step: Step,
}

struct Server {
    journal: Option<Vec<Entry>>,
    crc: Crc,
    methods: HashMap<(u32, u32), Method>,
    calls: Vec<Call>,
    live: HashMap<Name, usize>,
    sent: Vec<Packet>,
    counts: Counts,
    begun: bool,
    text: Vec<u8>,
}

impl Server {
    fn new(keeps: bool) -> Server {
        let service = hash_name("demo.Demo");
        let methods = [("Echo", Method::Echo), ("Count", Method::Count), ("Sum", Method::Sum), ("Chat", Method::Chat)];
        Server {
            journal: keeps.then(Vec::new),
            crc: Crc::new(),
            methods: methods.iter().map(|(name, m)| ((service, hash_name(name)), *m)).collect(),
            calls: Vec::new(),
            live: HashMap::new(),
            sent: Vec::new(),
            counts: Counts::default(),
            begun: false,
            text: Vec::new(),
        }
    }

    fn feed(&mut self, bytes: &[u8]) {
        for byte in bytes {
            if *byte != FLAG {
                if self.begun {
                    self.text.push(*byte);
                }
                continue;
            }
            if self.begun && !self.text.is_empty() {
                let text = std::mem::take(&mut self.text);
                self.segment(&text);
                self.text = text;
                self.text.clear();
            }
            self.begun = true;
        }
    }

    fn segment(&mut self, text: &[u8]) {
        match read_segment(&self.crc, text) {
            None => self.counts.bad += 1,
            Some((address, control, payload)) => {
                self.counts.valid += 1;
                if address != ADDRESS || control != CONTROL {
                    self.counts.other += 1;
                } else if let Some(p) = read_packet(&payload).filter(is_heard) {
                    self.arrive(p);
                } else {
                    self.counts.dropped += 1;
                }
            }
        }
    }

    fn keep(&mut self, seat: u32, step: impl FnOnce() -> Step) {
        if let Some(journal) = &mut self.journal {
            journal.push(Entry { seat, step: step() });
        }
    }

    // A run of a call: what it says follows.
    fn keep_run(&mut self, c: usize, said: &[u8]) {
        self.keep(2, || Step::Start(c));
        self.keep(2, || Step::Finish(c, vec![said.to_vec()]));
    }

    // Each call that is open at the end of the input is told so.
    fn end_in(&mut self) {
        self.keep(0, || Step::EndIn);
        for c in 0..self.calls.len() {
            if self.calls[c].status.is_none() {
                self.keep_run(c, &[]);
            }
        }
        if let Some(journal) = &self.journal {
            eprintln!("entries {}", journal.len());
        }
    }

    fn send(&mut self, ptype: u64, name: Name, payload: Vec<u8>, status: u32) {
        self.keep(1, || Step::Flush);
        self.sent.push(Packet { ptype, name, payload, status });
    }

    fn refuse(&mut self, name: Name, status: u32) {
        self.send(SERVER_ERROR, name, Vec::new(), status);
    }

    fn end(&mut self, c: usize, status: u32) {
        let name = self.calls[c].name;
        self.calls[c].status = Some(status);
        self.live.remove(&name);
    }

    fn respond(&mut self, c: usize, status: u32, payload: Vec<u8>) {
        let name = self.calls[c].name;
        self.send(RESPONSE, name, payload, status);
        self.end(c, status);
    }

    fn arrive(&mut self, p: Packet) {
        self.keep(0, || Step::Arrive(p.clone()));
        let is_in = (1..=8).contains(&p.name.channel);
        let method = self.methods.get(&(p.name.service, p.name.method)).copied();
        let live = self.live.get(&p.name).copied();
        if p.ptype == CLIENT_ERROR {
            if let (true, Some(_), Some(c)) = (is_in, method, live) {
                self.end(c, if p.status > 16 { UNKNOWN } else { p.status });
            }
            return;
        }
        if !is_in {
            return self.refuse(p.name, UNAVAILABLE);
        }
        let Some(method) = method else {
            return self.refuse(p.name, NOT_FOUND);
        };
        if p.ptype == REQUEST {
            if let Some(c) = live {
                self.end(c, CANCELLED);
            }
            let c = self.calls.len();
            self.calls.push(Call { name: p.name, method, completed: false, total: 0, status: None });
            self.live.insert(p.name, c);
            return self.request(c, p.payload);
        }
        let Some(c) = live else {
            return self.refuse(p.name, FAILED_PRECONDITION);
        };
        if p.ptype == CLIENT_STREAM {
            match method {
                Method::Echo | Method::Count => self.refuse(p.name, INVALID_ARGUMENT),
                _ if self.calls[c].completed => self.refuse(p.name, FAILED_PRECONDITION),
                _ => self.message(c, p.payload),
            }
        } else if method != Method::Echo && !self.calls[c].completed {
            self.calls[c].completed = true;
            self.complete(c);
        }
    }

    fn request(&mut self, c: usize, payload: Vec<u8>) {
        self.keep_run(c, &payload);
        match self.calls[c].method {
            Method::Echo if payload.len() > MAX_PAYLOAD => self.respond(c, RESOURCE_EXHAUSTED, Vec::new()),
            Method::Echo => self.respond(c, OK, payload),
            Method::Count => match payload[..] {
                [n] if n <= 64 => {
                    let name = self.calls[c].name;
                    for i in 1..=n {
                        self.send(SERVER_STREAM, name, vec![i], OK);
                    }
                    self.respond(c, OK, Vec::new());
                }
                _ => self.respond(c, INVALID_ARGUMENT, Vec::new()),
            },
            Method::Sum | Method::Chat => {}
        }
    }

    fn message(&mut self, c: usize, payload: Vec<u8>) {
        self.keep_run(c, &payload);
        if self.calls[c].method == Method::Sum {
            let sum = payload.iter().fold(0u64, |sum, b| sum.wrapping_add(u64::from(*b)));
            self.calls[c].total = self.calls[c].total.wrapping_add(sum);
        } else if payload.len() > MAX_PAYLOAD {
            self.respond(c, RESOURCE_EXHAUSTED, Vec::new());
        } else {
            let name = self.calls[c].name;
            self.send(SERVER_STREAM, name, payload, OK);
        }
    }

    fn complete(&mut self, c: usize) {
        self.keep_run(c, &[]);
        match self.calls[c].method {
            Method::Sum => {
                let total = self.calls[c].total.to_be_bytes().to_vec();
                self.respond(c, OK, total);
            }
            Method::Chat => self.respond(c, OK, Vec::new()),
            Method::Echo | Method::Count => {}
        }
    }

    fn report(&self) -> String {
        let Counts { valid, bad, other, dropped } = self.counts;
        let mut text = format!("frames {valid} bad {bad} other {other} dropped {dropped}\n");
        for (i, call) in self.calls.iter().enumerate() {
            let Name { channel, service, method, call: id } = call.name;
            let kind = match call.method {
                Method::Echo => "unary",
                Method::Count => "server",
                Method::Sum => "client",
                Method::Chat => "bidi",
            };
            let status = call.status.map_or("open", |s| STATUSES[s as usize]);
            text += &format!("call {i} {channel} {service:08x} {method:08x} {id} {kind} {status}\n");
        }
        for p in &self.sent {
            let mut frame = Vec::new();
            put_frame(&self.crc, &mut frame, p);
            text += "out ";
            for byte in frame {
                text += &format!("{byte:02x}");
            }
            text += "\n";
        }
        text + "done\n"
    }

    fn raw(&self) -> Vec<u8> {
        let mut out = Vec::new();
        for p in &self.sent {
            put_frame(&self.crc, &mut out, p);
        }
        out
    }
}

fn is_heard(p: &Packet) -> bool {
    let Name { channel, service, method, .. } = p.name;
    matches!(p.ptype, REQUEST | CLIENT_STREAM | CLIENT_ERROR | COMPLETION) && channel != 0 && service != 0 && method != 0
}

// A stream of frames, of the packets that `packets` puts.
fn recording(packets: impl FnOnce(&mut dyn FnMut(u64, Name, &[u8]))) -> Vec<u8> {
    let crc = Crc::new();
    let mut out = Vec::new();
    packets(&mut |ptype, name, payload| put_frame(&crc, &mut out, &Packet { ptype, name, payload: payload.to_vec(), status: 0 }));
    out
}

fn main() -> io::Result<()> {
    let words: Vec<String> = std::env::args().skip(1).collect();
    let mut words: Vec<&str> = words.iter().map(String::as_str).collect();
    let keeps = words.first() == Some(&"keep");
    if keeps {
        words.remove(0);
    }
    let mut server = Server::new(keeps);
    let out = match words[..] {
        ["recording", "echo", n] => recording(|put| recordings::echo(n.parse().unwrap(), put)),
        ["recording", "open", n] => recording(|put| recordings::open(n.parse().unwrap(), put)),
        ["recording", "load", n, seed] => recording(|put| recordings::load(n.parse().unwrap(), seed.parse().unwrap(), put)),
        ["load", n, seed] => {
            server.feed(&recording(|put| recordings::load(n.parse().unwrap(), seed.parse().unwrap(), put)));
            server.end_in();
            let payload: usize = server.sent.iter().map(|p| p.payload.len()).sum();
            let (calls, packets) = (server.calls.len(), server.sent.len());
            format!("load {n} {seed}\ncalls {calls}\npackets {packets}\npayload {payload}\n").into_bytes()
        }
        [form @ ("report" | "raw")] => {
            let mut piece = vec![0; 4_096];
            loop {
                match io::stdin().read(&mut piece)? {
                    0 => break,
                    n => server.feed(&piece[..n]),
                }
            }
            server.end_in();
            if form == "raw" { server.raw() } else { server.report().into_bytes() }
        }
        _ => std::process::exit(2),
    };
    io::stdout().write_all(&out)
}

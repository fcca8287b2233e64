//! A plain server of calls that turn a number over and over: a reader, a pool of workers over one table behind a mutex, and a writer.
//!
//! Its words are how many workers, how many calls, and how many rounds each handler turns. It prints how many replies were written
//! and their octets, and to standard error the nanoseconds that this took.
use std::collections::{HashMap, VecDeque};
use std::hint::black_box;
use std::sync::mpsc::{Receiver, Sender, channel};
use std::sync::{Condvar, Mutex};
use std::time::Instant;
use wire::{ADDRESS, CONTROL, Crc, FLAG, Name, Packet, put_frame, read_packet, read_segment};

#[path = "../plain/wire.rs"]
mod wire;

// The hashes of the names bench.Bench and Turn.
const SERVICE: u32 = 0x797d_5979;
const METHOD: u32 = 0x218a_f221;

fn heard(crc: &Crc, text: &[u8]) -> Option<Packet> {
    let (address, control, payload) = read_segment(crc, text)?;
    if address != ADDRESS || control != CONTROL {
        return None;
    }
    read_packet(&payload)
}

#[derive(Default)]
struct Table {
    live: HashMap<Name, u64>,
    ready: VecDeque<Name>,
    ended: bool,
}

#[derive(Default)]
struct Shared {
    table: Mutex<Table>,
    changed: Condvar,
}

fn read(crc: &Crc, shared: &Shared, stream: &[u8]) {
    for text in stream.split(|byte| *byte == FLAG).filter(|text| !text.is_empty()) {
        if let Some(p) = heard(crc, text) {
            let mut table = shared.table.lock().unwrap();
            table.live.insert(p.name, 1);
            table.ready.push_back(p.name);
            shared.changed.notify_one();
        }
    }
    shared.table.lock().unwrap().ended = true;
    shared.changed.notify_all();
}

fn turned(mut number: u64, rounds: u32) -> u64 {
    for _ in 0..rounds {
        number ^= number << 13;
        number ^= number >> 7;
        number ^= number << 17;
    }
    number
}

fn work(shared: &Shared, rounds: u32, replies: Sender<Packet>) {
    let mut table = shared.table.lock().unwrap();
    loop {
        if let Some(name) = table.ready.pop_front() {
            let number = table.live[&name];
            drop(table);
            black_box(turned(number, black_box(rounds)));
            table = shared.table.lock().unwrap();
            table.live.remove(&name);
            replies.send(Packet { ptype: 1, name, payload: Vec::new(), status: 0 }).unwrap();
        } else if table.ended {
            return;
        } else {
            table = shared.changed.wait(table).unwrap();
        }
    }
}

fn write(crc: &Crc, replies: Receiver<Packet>) -> (u32, Vec<u8>) {
    let mut out = Vec::new();
    let mut done = 0;
    for reply in replies {
        put_frame(crc, &mut out, &reply);
        done += 1;
    }
    (done, out)
}

fn main() {
    let words: Vec<u32> = std::env::args().skip(1).map(|word| word.parse().unwrap()).collect();
    let [workers, calls, rounds] = words[..] else {
        std::process::exit(2);
    };
    let crc = Crc::new();
    let mut stream = Vec::new();
    for call in 1..=calls {
        let name = Name { channel: 1, service: SERVICE, method: METHOD, call };
        put_frame(&crc, &mut stream, &Packet { ptype: 0, name, payload: Vec::new(), status: 0 });
    }
    let begun = Instant::now();
    let shared = Shared::default();
    let (sender, receiver) = channel();
    let (done, out) = std::thread::scope(|scope| {
        let writer = scope.spawn(|| write(&crc, receiver));
        for _ in 0..workers {
            let (shared, sender) = (&shared, sender.clone());
            scope.spawn(move || work(shared, rounds, sender));
        }
        drop(sender);
        read(&crc, &shared, &stream);
        writer.join().unwrap()
    });
    let taken = begun.elapsed();
    println!("replies {done} octets {}", out.len());
    eprintln!("{}", taken.as_nanos());
}

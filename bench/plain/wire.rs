//! What the plain servers of the benches share: frames and packets, with nothing proved.

pub const FLAG: u8 = 0x7e;
const ESCAPE: u8 = 0x7d;
pub const ADDRESS: u64 = 82;
pub const CONTROL: u8 = 0x03;

#[derive(Clone, Copy, PartialEq, Eq, Hash, Default)]
pub struct Name {
    pub channel: u32,
    pub service: u32,
    pub method: u32,
    pub call: u32,
}

#[derive(Clone, Default)]
pub struct Packet {
    pub ptype: u64,
    pub name: Name,
    pub payload: Vec<u8>,
    pub status: u32,
}

pub struct Crc([u32; 256]);

impl Crc {
    pub fn new() -> Crc {
        let mut table = [0; 256];
        for (i, entry) in table.iter_mut().enumerate() {
            *entry = (0..8).fold(i as u32, |r, _| if r & 1 == 1 { (r >> 1) ^ 0xedb8_8320 } else { r >> 1 });
        }
        Crc(table)
    }

    pub fn of(&self, bytes: &[u8]) -> u32 {
        !bytes.iter().fold(!0, |r: u32, b| (r >> 8) ^ self.0[((r ^ u32::from(*b)) & 0xff) as usize])
    }
}

fn put_varint(out: &mut Vec<u8>, mut value: u64) {
    while value >= 0x80 {
        out.push(value as u8 | 0x80);
        value >>= 7;
    }
    out.push(value as u8);
}

fn spell(p: &Packet) -> Vec<u8> {
    let mut out = Vec::with_capacity(p.payload.len() + 32);
    let varint = |out: &mut Vec<u8>, number: u64, value: u64| {
        if value != 0 {
            put_varint(out, number << 3);
            put_varint(out, value);
        }
    };
    varint(&mut out, 1, p.ptype);
    varint(&mut out, 2, p.name.channel.into());
    for (number, value) in [(3, p.name.service), (4, p.name.method)] {
        if value != 0 {
            out.push(number << 3 | 5);
            out.extend_from_slice(&value.to_le_bytes());
        }
    }
    if !p.payload.is_empty() {
        out.push(5 << 3 | 2);
        put_varint(&mut out, p.payload.len() as u64);
        out.extend_from_slice(&p.payload);
    }
    varint(&mut out, 6, p.status.into());
    varint(&mut out, 7, p.name.call.into());
    out
}

pub fn put_frame(crc: &Crc, out: &mut Vec<u8>, p: &Packet) {
    let mut content = vec![(ADDRESS as u8) << 1 | 1, CONTROL];
    content.extend_from_slice(&spell(p));
    let check = crc.of(&content);
    content.extend_from_slice(&check.to_le_bytes());
    out.push(FLAG);
    for byte in content {
        if byte == FLAG || byte == ESCAPE {
            out.extend_from_slice(&[ESCAPE, byte ^ 0x20]);
        } else {
            out.push(byte);
        }
    }
    out.push(FLAG);
}

fn get_varint(bytes: &mut &[u8]) -> Option<u64> {
    let mut value = 0u128;
    for i in 0..10 {
        let (first, rest) = bytes.split_first()?;
        *bytes = rest;
        value |= u128::from(first & 0x7f) << (7 * i);
        if first & 0x80 == 0 {
            return u64::try_from(value).ok();
        }
    }
    None
}

fn get<'a>(bytes: &mut &'a [u8], n: u64) -> Option<&'a [u8]> {
    let n = usize::try_from(n).ok().filter(|n| *n <= bytes.len())?;
    let (front, rest) = bytes.split_at(n);
    *bytes = rest;
    Some(front)
}

pub fn read_packet(mut bytes: &[u8]) -> Option<Packet> {
    let mut p = Packet::default();
    while !bytes.is_empty() {
        let tag = u32::try_from(get_varint(&mut bytes)?).ok()?;
        let (number, wire) = (tag >> 3, tag & 7);
        if number == 0 {
            return None;
        }
        let mut varint = 0;
        let mut word: &[u8] = &[];
        match wire {
            0 => varint = get_varint(&mut bytes)?,
            1 => word = get(&mut bytes, 8)?,
            2 => {
                let n = get_varint(&mut bytes)?;
                word = get(&mut bytes, n)?;
            }
            5 => word = get(&mut bytes, 4)?,
            _ => return None,
        }
        let wanted = match number {
            1 | 2 | 6 | 7 => 0,
            3 | 4 => 5,
            5 => 2,
            _ => continue,
        };
        if wire != wanted {
            return None;
        }
        match number {
            1 => p.ptype = varint,
            2 => p.name.channel = u32::try_from(varint).ok()?,
            3 => p.name.service = u32::from_le_bytes(word.try_into().ok()?),
            4 => p.name.method = u32::from_le_bytes(word.try_into().ok()?),
            5 => p.payload = word.to_vec(),
            6 => p.status = u32::try_from(varint).ok()?,
            _ => p.name.call = u32::try_from(varint).ok()?,
        }
    }
    Some(p)
}

/// The address, the control octet and the payload of a segment.
pub fn read_segment(crc: &Crc, text: &[u8]) -> Option<(u64, u8, Vec<u8>)> {
    let mut content = Vec::with_capacity(text.len());
    let mut bytes = text.iter();
    while let Some(byte) = bytes.next() {
        content.push(match *byte {
            ESCAPE => bytes.next().copied().filter(|x| *x != ESCAPE)? ^ 0x20,
            byte => byte,
        });
    }
    if content.len() > 8_192 || content.len() < 6 {
        return None;
    }
    let (rest, check) = content.split_at(content.len() - 4);
    if crc.of(rest).to_le_bytes() != check {
        return None;
    }
    let mut address = 0;
    for i in 0..5.min(rest.len()) {
        address |= u64::from(rest[i] >> 1) << (7 * i);
        if rest[i] & 1 == 1 {
            let control = *rest.get(i + 1)?;
            return (address < 1 << 32).then(|| (address, control, rest[i + 2..].to_vec()));
        }
    }
    None
}

// The same codec in plain safe Rust, for comparison: lines `write COUNT`, `read COUNT` and `bytes COUNT`.
use std::io::BufRead;

const TAG: u8 = 0x42;
const COMMANDS: usize = 8;
const ROOM: usize = 502;
const SUM: usize = 510;
const LAST_EPOCH: u64 = 1_000_000;
const BLOCKS: u32 = 64;

#[derive(Clone, Copy, PartialEq, Debug)]
struct Key {
    kind: u8,
    code: u128,
}

#[derive(Clone, Copy, PartialEq, Debug)]
enum Entry {
    Txn { tid: u64 },
    Put { key: Key, value: i64 },
    Del { key: Key },
    Row { tid: u64, key: Key, value: i64 },
    Gone { tid: u64, key: Key },
}

#[derive(Clone, Copy, PartialEq, Debug)]
enum Refusal {
    NoSuchIndex = 13,
    NoRoomInBlock = 42,
    BadHeader = 62,
    BadSum = 63,
    BadPadding = 64,
    BadCommand = 65,
    MisplacedCommand = 66,
    FieldOutOfRange = 67,
}

#[allow(dead_code)]
#[derive(Clone, Copy, PartialEq, Debug)]
struct Fault {
    refusal: Refusal,
    file: u8,
    block: u32,
    byte: u16,
    epoch: u32,
}

#[derive(Clone, Copy)]
struct Way {
    at: usize,
    epoch: u32,
    opened: bool,
}

fn fletcher16(bytes: &[u8]) -> u16 {
    let (mut low, mut high) = (0u32, 0u32);
    for run in bytes.chunks(4096) {
        for &b in run {
            low += b as u32;
            high += low;
        }
        low %= 255;
        high %= 255;
    }
    (high * 256 + low) as u16
}

impl Entry {
    fn size(&self) -> usize {
        match self {
            Entry::Txn { .. } => 9,
            Entry::Put { .. } | Entry::Gone { .. } => 26,
            Entry::Del { .. } => 18,
            Entry::Row { .. } => 34,
        }
    }

    fn tid(&self) -> Option<u64> {
        match *self {
            Entry::Txn { tid } | Entry::Row { tid, .. } | Entry::Gone { tid, .. } => Some(tid),
            _ => None,
        }
    }
}

fn epoch_fits(epoch: u64) -> bool {
    1 <= epoch && epoch <= LAST_EPOCH
}

fn epoch_after(epoch: u32, entry: &Entry) -> u32 {
    match entry.tid() {
        Some(tid) if epoch_fits(tid / 65_536) => (tid / 65_536) as u32,
        _ => epoch,
    }
}

fn wrong_field(marked: u32, entry: &Entry) -> Option<usize> {
    let kind = |at: usize, key: Key| (key.kind > 3).then_some(at);
    let value = |at: usize, v: i64| (!(-1_000_000_000..=1_000_000_000).contains(&v)).then_some(at);
    let row = |tid: u64| (!(epoch_fits(tid / 65_536) && tid / 65_536 <= marked as u64)).then_some(1);
    match *entry {
        Entry::Txn { tid } => (!epoch_fits(tid / 65_536)).then_some(1),
        Entry::Put { key, value: v } => kind(1, key).or(value(18, v)),
        Entry::Del { key } => kind(1, key),
        Entry::Row { tid, key, value: v } => row(tid).or(kind(9, key)).or(value(26, v)),
        Entry::Gone { tid, key } => row(tid).or(kind(9, key)),
    }
}

fn check(file: u8, block: u32, marked: u32, way: Way, entry: &Entry) -> Result<Way, Fault> {
    let log = file < 4;
    let placed = match entry {
        Entry::Txn { .. } => log,
        Entry::Put { .. } | Entry::Del { .. } => log && way.opened,
        Entry::Row { .. } | Entry::Gone { .. } => !log,
    };
    if !placed {
        return Err(Fault { refusal: Refusal::MisplacedCommand, file, block, byte: way.at as u16, epoch: way.epoch });
    }
    let epoch = epoch_after(way.epoch, entry);
    if let Some(i) = wrong_field(marked, entry) {
        return Err(Fault { refusal: Refusal::FieldOutOfRange, file, block, byte: (way.at + i) as u16, epoch });
    }
    Ok(Way { at: way.at + entry.size(), epoch, opened: way.opened || matches!(entry, Entry::Txn { .. }) })
}

#[allow(dead_code)]
#[derive(Debug)]
enum WriteError {
    Refused(Refusal),
    Faulty(Fault),
}

fn put(bytes: &mut [u8], at: &mut usize, part: &[u8]) {
    bytes[*at..*at + part.len()].copy_from_slice(part);
    *at += part.len();
}

fn lay(bytes: &mut [u8], entry: &Entry) {
    let at = &mut 0;
    let tag = match entry {
        Entry::Txn { .. } => 1u8,
        Entry::Put { .. } => 2,
        Entry::Del { .. } => 3,
        Entry::Row { .. } => 4,
        Entry::Gone { .. } => 5,
    };
    put(bytes, at, &[tag]);
    if let Some(tid) = entry.tid() {
        put(bytes, at, &tid.to_be_bytes());
    }
    if let Entry::Put { key, .. } | Entry::Del { key } | Entry::Row { key, .. } | Entry::Gone { key, .. } = entry {
        put(bytes, at, &[key.kind]);
        put(bytes, at, &key.code.to_be_bytes());
    }
    if let Entry::Put { value, .. } | Entry::Row { value, .. } = entry {
        put(bytes, at, &value.to_be_bytes());
    }
}

fn write_block(file: u8, number: u32, entries: &[Entry]) -> Result<[u8; 512], WriteError> {
    if file > 7 {
        return Err(WriteError::Refused(Refusal::NoSuchIndex));
    }
    let mut block = [0u8; 512];
    let mut way = Way { at: COMMANDS, epoch: 0, opened: false };
    for entry in entries {
        let next = check(file, number, LAST_EPOCH as u32, way, entry).map_err(WriteError::Faulty)?;
        if next.at > SUM {
            return Err(WriteError::Refused(Refusal::NoRoomInBlock));
        }
        lay(&mut block[way.at..next.at], entry);
        way = next;
    }
    block[0] = TAG;
    block[1] = file;
    block[2..4].copy_from_slice(&((way.at - COMMANDS) as u16).to_be_bytes());
    block[4..8].copy_from_slice(&number.to_be_bytes());
    let sum = fletcher16(&block[..SUM]);
    block[SUM..].copy_from_slice(&sum.to_be_bytes());
    Ok(block)
}

fn number(bytes: &[u8]) -> u64 {
    u64::from_be_bytes(bytes.try_into().unwrap())
}

fn key(bytes: &[u8]) -> Key {
    Key { kind: bytes[0], code: u128::from_be_bytes(bytes[1..17].try_into().unwrap()) }
}

fn parse(rest: &[u8]) -> Option<Entry> {
    match *rest.first()? {
        1 if rest.len() >= 9 => Some(Entry::Txn { tid: number(&rest[1..9]) }),
        2 if rest.len() >= 26 => Some(Entry::Put { key: key(&rest[1..18]), value: number(&rest[18..26]) as i64 }),
        3 if rest.len() >= 18 => Some(Entry::Del { key: key(&rest[1..18]) }),
        4 if rest.len() >= 34 => Some(Entry::Row { tid: number(&rest[1..9]), key: key(&rest[9..26]), value: number(&rest[26..34]) as i64 }),
        5 if rest.len() >= 26 => Some(Entry::Gone { tid: number(&rest[1..9]), key: key(&rest[9..26]) }),
        _ => None,
    }
}

struct Commands<'a> {
    rest: &'a [u8],
}

impl Iterator for Commands<'_> {
    type Item = Entry;

    fn next(&mut self) -> Option<Entry> {
        let entry = parse(self.rest)?;
        self.rest = &self.rest[entry.size()..];
        Some(entry)
    }
}

fn read(block: &[u8; 512], file: u8, number: u32, marked: u32) -> Result<Commands<'_>, Fault> {
    let fault = |refusal, byte: usize, epoch| Fault { refusal, file, block: number, byte: byte as u16, epoch };
    if block[0] != TAG {
        return Err(fault(Refusal::BadHeader, 0, 0));
    }
    if block[1] != file || file > 7 {
        return Err(fault(Refusal::BadHeader, 1, 0));
    }
    let n = u16::from_be_bytes([block[2], block[3]]) as usize;
    if n > ROOM {
        return Err(fault(Refusal::BadHeader, 2, 0));
    }
    if u32::from_be_bytes([block[4], block[5], block[6], block[7]]) != number {
        return Err(fault(Refusal::BadHeader, 4, 0));
    }
    if u16::from_be_bytes([block[510], block[511]]) != fletcher16(&block[..SUM]) {
        return Err(fault(Refusal::BadSum, SUM, 0));
    }
    let end = COMMANDS + n;
    if let Some(i) = block[end..SUM].iter().position(|b| *b != 0) {
        return Err(fault(Refusal::BadPadding, end + i, 0));
    }
    let mut commands = Commands { rest: &block[COMMANDS..end] };
    let mut way = Way { at: COMMANDS, epoch: 0, opened: false };
    for entry in &mut commands {
        way = check(file, number, marked, way, &entry)?;
    }
    if way.at < end {
        return Err(fault(Refusal::BadCommand, way.at, way.epoch));
    }
    Ok(Commands { rest: &block[COMMANDS..end] })
}

fn full_log() -> Vec<Entry> {
    let mut entries = Vec::new();
    for i in 0..2u64 {
        entries.push(Entry::Txn { tid: 3 * 65_536 + i });
    }
    for i in 0..11u32 {
        entries.push(Entry::Put { key: Key { kind: 0, code: i as u128 }, value: i as i64 - 5 });
        entries.push(Entry::Del { key: Key { kind: 1, code: u128::MAX - i as u128 } });
    }
    entries
}

fn codes_of(block: &[u8; 512], number: u32) -> u64 {
    let Ok(commands) = read(block, 0, number, 1_000_000) else { return 0 };
    let mut all = 0u64;
    for entry in commands {
        if let Entry::Put { key, .. } = entry {
            all = all.wrapping_add((key.code & 0xffff) as u64).wrapping_add(1);
        }
    }
    all
}

fn sum_of(block: &[u8; 512]) -> u64 {
    u16::from_be_bytes([block[510], block[511]]) as u64
}

fn bytes_digest(block: &[u8; 512]) -> u64 {
    block.iter().fold(0u64, |all, b| all.wrapping_mul(31).wrapping_add(*b as u64))
}

fn main() {
    let entries = full_log();
    let blocks: Vec<[u8; 512]> = (0..BLOCKS).map(|number| write_block(0, number, &entries).unwrap()).collect();
    for line in std::io::stdin().lock().lines() {
        let line = line.unwrap();
        let (what, count) = line.split_once(' ').unwrap();
        let (mut done, mut digest) = (0u64, 0u64);
        for round in 0..count.trim().parse::<u32>().unwrap() {
            let part = match what {
                "write" => sum_of(&write_block(0, round, &entries).unwrap()),
                "bytes" => bytes_digest(&write_block(0, round, &entries).unwrap()),
                _ => codes_of(&blocks[(round % BLOCKS) as usize], round % BLOCKS),
            };
            digest = digest.wrapping_mul(31).wrapping_add(part);
            done += 1;
        }
        println!("{done} {digest}");
    }
}

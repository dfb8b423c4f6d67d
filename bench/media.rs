// The same as crates/mediumbench, in plain safe Rust: `ring COUNT` and `pool COUNT` on standard input.
use std::io::BufRead;

const CAPACITIES: [u32; 8] = [4096, 1, 1, 1, 1, 1, 1, 1];
const BLOCKS: usize = 4103;
const LAST_COUNT: u32 = 16_777_215;

#[derive(Clone, Copy, Default)]
struct File { base: usize, capacity: u32, first: u32, count: u32, synced: u32 }

trait Medium {
    fn append(&mut self, file: u8, block: &[u8; 512]) -> Result<u32, u8>;
    fn sync(&mut self, file: u8) -> Result<u32, u8>;
    fn fetch(&self, file: u8, number: u32, into: &mut [u8; 512]) -> Result<u32, u8>;
    fn retire(&mut self, file: u8, number: u32) -> Result<u32, u8>;
}

fn files() -> [File; 8] {
    let mut files = [File::default(); 8];
    let mut base = 0;
    for (f, c) in files.iter_mut().zip(CAPACITIES) {
        *f = File { base, capacity: c, ..File::default() };
        base += c as usize;
    }
    files
}

fn full(f: &File) -> bool { f.count - f.first == f.capacity || f.count == LAST_COUNT }

struct Ring<'a> { cells: &'a mut [[u8; 512]], files: [File; 8] }

impl Medium for Ring<'_> {
    fn append(&mut self, file: u8, block: &[u8; 512]) -> Result<u32, u8> {
        let f = self.files.get_mut(file as usize).ok_or(13)?;
        if full(f) { return Err(43); }
        let n = f.count;
        self.cells[f.base + (n % f.capacity) as usize] = *block;
        f.count += 1;
        Ok(n)
    }
    fn sync(&mut self, file: u8) -> Result<u32, u8> {
        let f = self.files.get_mut(file as usize).ok_or(13)?;
        f.synced = f.count;
        Ok(f.count)
    }
    fn fetch(&self, file: u8, number: u32, into: &mut [u8; 512]) -> Result<u32, u8> {
        let f = self.files.get(file as usize).ok_or(13)?;
        if number < f.first || number >= f.count { return Err(44); }
        *into = self.cells[f.base + (number % f.capacity) as usize];
        Ok(number)
    }
    fn retire(&mut self, file: u8, number: u32) -> Result<u32, u8> {
        let f = self.files.get_mut(file as usize).ok_or(13)?;
        if number < f.first || number > f.synced { return Err(45); }
        f.first = number;
        Ok(0)
    }
}

struct Pool<'a> { pages: &'a mut [[u8; 512]], table: Vec<u32>, spare: Vec<u32>, files: [File; 8] }

impl Medium for Pool<'_> {
    fn append(&mut self, file: u8, block: &[u8; 512]) -> Result<u32, u8> {
        let f = self.files.get_mut(file as usize).ok_or(13)?;
        if full(f) { return Err(43); }
        let n = f.count;
        let page = self.spare.pop().ok_or(43)?;
        self.table[f.base + (n % f.capacity) as usize] = page;
        self.pages[page as usize] = *block;
        f.count += 1;
        Ok(n)
    }
    fn sync(&mut self, file: u8) -> Result<u32, u8> {
        let f = self.files.get_mut(file as usize).ok_or(13)?;
        f.synced = f.count;
        Ok(f.count)
    }
    fn fetch(&self, file: u8, number: u32, into: &mut [u8; 512]) -> Result<u32, u8> {
        let f = self.files.get(file as usize).ok_or(13)?;
        if number < f.first || number >= f.count { return Err(44); }
        *into = self.pages[self.table[f.base + (number % f.capacity) as usize] as usize];
        Ok(number)
    }
    fn retire(&mut self, file: u8, number: u32) -> Result<u32, u8> {
        let f = self.files.get_mut(file as usize).ok_or(13)?;
        if number < f.first || number > f.synced { return Err(45); }
        for n in f.first..number {
            self.spare.push(self.table[f.base + (n % f.capacity) as usize]);
        }
        f.first = number;
        Ok(0)
    }
}

fn round<M: Medium>(m: &mut M, next: u32, digest: u64) -> Result<(u32, u64), u8> {
    let mut block = [0u8; 512];
    for i in 0..4096u32 {
        block[0] = (i & 0xff) as u8;
        m.append(0, &block)?;
    }
    let end = m.sync(0)?;
    let mut sum = digest;
    for n in next..end {
        m.fetch(0, n, &mut block)?;
        sum = sum.wrapping_mul(31).wrapping_add(block[0] as u64);
    }
    m.retire(0, end)?;
    Ok((end, sum))
}

fn rounds<M: Medium>(mut m: M, count: u32) -> (u32, u64) {
    let mut tally = (0, 7);
    for _ in 0..count {
        match round(&mut m, tally.0, tally.1) {
            Ok(more) => tally = more,
            Err(_) => break,
        }
    }
    tally
}

fn main() {
    for line in std::io::stdin().lock().lines() {
        let line = line.unwrap();
        let (what, number) = line.split_once(' ').unwrap();
        let count: u32 = number.parse().unwrap();
        let mut cells = vec![[0u8; 512]; BLOCKS];
        let (blocks, digest) = match what {
            "ring" => rounds(Ring { cells: &mut cells, files: files() }, count),
            _ => rounds(Pool { pages: &mut cells, table: vec![0; BLOCKS], spare: (0..BLOCKS as u32).rev().collect(), files: files() }, count),
        };
        println!("{what}: {blocks} blocks, digest {digest}");
    }
}

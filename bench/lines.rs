// Plain Rust doing what `bench_lines` does, for comparison: a simulated memory in `Vec`s, and lines in a file.
//
//     rustc --edition 2021 -O bench/lines.rs -o target/plain_lines
//     (cd crates/bench_lines && rt run)
//     crates/bench_lines/out/bench_lines 100000 /tmp/lines.a && target/plain_lines 100000 /tmp/lines.b
//
// A round stores and loads 128 words of 16 lines, pushes these, and sets a fence.
use std::fs::{File, OpenOptions};
use std::hint::black_box;
use std::io::{Read, Seek, SeekFrom, Write};
use std::time::Instant;

const LINES: usize = 32_768;
const OPERATIONS: u64 = 128 + 128 + 16 + 1;

trait Memory {
    fn load(&mut self, line: usize, word: usize) -> u64;
    fn store(&mut self, line: usize, word: usize, value: u64);
    fn push(&mut self, line: usize);
    fn fence(&mut self);
}

// As the simulated memory: what lasts, what is seen, and the stores since.
struct Simulated {
    lasts: Vec<u64>,
    sees: Vec<u64>,
    journal: Vec<(usize, u64)>,
    counts: Vec<u64>,
    pushed: Vec<u64>,
}

impl Memory for Simulated {
    fn load(&mut self, line: usize, word: usize) -> u64 {
        self.sees[line * 8 + word]
    }

    fn store(&mut self, line: usize, word: usize, value: u64) {
        self.sees[line * 8 + word] = value;
        self.journal.push((line * 8 + word, value));
        self.counts[line] += 1;
    }

    fn push(&mut self, line: usize) {
        self.pushed[line] = self.counts[line];
    }

    fn fence(&mut self) {
        let Simulated { lasts, journal, counts, pushed, .. } = self;
        journal.retain(|&(place, value)| {
            let line = place / 8;
            if pushed[line] == 0 {
                return true;
            }
            pushed[line] -= 1;
            counts[line] -= 1;
            lasts[place] = value;
            false
        });
    }
}

// A `Vec` alone, of which nothing lasts.
struct Plain(Vec<u64>);

impl Memory for Plain {
    fn load(&mut self, line: usize, word: usize) -> u64 {
        self.0[line * 8 + word]
    }

    fn store(&mut self, line: usize, word: usize, value: u64) {
        self.0[line * 8 + word] = value;
    }

    fn push(&mut self, _line: usize) {}

    fn fence(&mut self) {}
}

// Lines held in memory, written to a file at a push, and synced at a fence.
struct InFile {
    file: File,
    words: Vec<u64>,
}

impl InFile {
    fn open(path: &str) -> std::io::Result<InFile> {
        let mut file = OpenOptions::new().read(true).write(true).create(true).truncate(false).open(path)?;
        file.set_len(LINES as u64 * 64)?;
        let mut bytes = Vec::new();
        file.read_to_end(&mut bytes)?;
        let words = bytes.chunks(8).map(|b| u64::from_be_bytes(b.try_into().unwrap())).collect();
        Ok(InFile { file, words })
    }
}

impl Memory for InFile {
    fn load(&mut self, line: usize, word: usize) -> u64 {
        self.words[line * 8 + word]
    }

    fn store(&mut self, line: usize, word: usize, value: u64) {
        self.words[line * 8 + word] = value;
    }

    fn push(&mut self, line: usize) {
        let mut bytes = [0u8; 64];
        for (i, word) in self.words[line * 8..line * 8 + 8].iter().enumerate() {
            bytes[i * 8..i * 8 + 8].copy_from_slice(&word.to_be_bytes());
        }
        self.file.seek(SeekFrom::Start(line as u64 * 64)).unwrap();
        self.file.write_all(&bytes).unwrap();
    }

    fn fence(&mut self) {
        self.file.sync_data().unwrap();
    }
}

fn measure(name: &str, memory: &mut impl Memory, count: u64) {
    let start = Instant::now();
    let mut sum = 0u64;
    for round in 0..count {
        for i in 0..16 {
            let line = (round as usize * 16 + i) % LINES;
            for word in 0..8 {
                memory.store(line, word, black_box(round));
            }
            for word in 0..8 {
                sum = sum.wrapping_add(black_box(memory.load(line, word)));
            }
            memory.push(line);
        }
        memory.fence();
    }
    let micros = start.elapsed().as_micros().max(1);
    black_box(sum);
    let operations = count * OPERATIONS;
    println!("{name}: {operations} operations in {micros} microseconds, {} a second", operations as u128 * 1_000_000 / micros);
}

fn main() {
    let mut args = std::env::args().skip(1);
    let count: u64 = args.next().and_then(|a| a.parse().ok()).unwrap_or(100_000);
    let path = args.next().unwrap_or_else(|| "/tmp/plain_lines".into());
    let mut simulated = Simulated {
        lasts: vec![0; LINES * 8],
        sees: vec![0; LINES * 8],
        journal: Vec::new(),
        counts: vec![0; LINES],
        pushed: vec![0; LINES],
    };
    measure("plain Rust, the same in Vecs", &mut simulated, count);
    measure("plain Rust, a Vec alone", &mut Plain(vec![0; LINES * 8]), count);
    measure("plain Rust, a file", &mut InFile::open(&path).unwrap(), count / 100);
}

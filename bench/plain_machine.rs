// The loops of `bench/machine` in plain Rust. Says the nanoseconds that a loop took.
use std::collections::BTreeMap;
use std::hint::black_box;
use std::time::Instant;

fn next(a: u64) -> u64 {
    black_box(a) + 1
}

fn keys(count: u64, key: impl Fn(u64) -> u64) -> u64 {
    let mut map = BTreeMap::new();
    for i in 0..count {
        map.insert(key(i), i);
    }
    map.len() as u64
}

fn fields(bytes: &[u8]) -> u64 {
    let mut n = 0;
    for x in bytes.chunks_exact(7) {
        let a = x[0];
        let b = u16::from_be_bytes([x[1], x[2]]);
        let c = u32::from_be_bytes([x[3], x[4], x[5], x[6]]);
        black_box((a, b, c));
        n += 1;
    }
    n
}

fn main() {
    let words: Vec<String> = std::env::args().skip(1).collect();
    let count: u64 = words[1].parse().unwrap_or(0);
    let bytes = if words[0] == "fields" { std::fs::read(&words[1]).unwrap() } else { Vec::new() };
    let start = Instant::now();
    let found = match words[0].as_str() {
        "counts" => {
            let mut i = 0;
            while black_box(i) < count {
                i += 1;
            }
            i
        }
        "calls" => {
            let mut i = 0;
            while i < count {
                i = next(i);
            }
            i
        }
        "appends" => {
            let mut v = Vec::new();
            for i in 0..count {
                v.push(black_box(i));
            }
            v.len() as u64
        }
        "rising" => keys(count, |i| i),
        "falling" => keys(count, |i| count - i),
        "mixed" => keys(count, |i| i * 123_457 % count),
        "looping" => {
            let map: BTreeMap<u64, u64> = (0..count).map(|i| (i, i)).collect();
            let mut n = 0;
            for x in &map {
                black_box(x);
                n += 1;
            }
            n
        }
        "nested" => {
            let mut map: BTreeMap<u64, Vec<u64>> = BTreeMap::new();
            map.insert(7, Vec::new());
            for i in 0..count {
                map.get_mut(&7).unwrap().push(i);
            }
            map[&7].len() as u64
        }
        _ => fields(&bytes),
    };
    black_box(found);
    println!("{}", start.elapsed().as_nanos());
}

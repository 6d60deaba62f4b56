// The loops of `leaf_bench` on the library in plain Rust, with the same types of results.
use std::collections::BTreeMap;
use std::io::BufRead;
use std::rc::Rc;

const TIMES: u64 = 32;

fn repeated(pattern: &[u8], count: u64) -> Vec<u8> {
    let mut bytes = Vec::new();
    while (bytes.len() as u64) < count {
        bytes.extend_from_slice(pattern);
    }
    bytes
}

fn operand(name: &str, count: u64) -> Vec<u8> {
    match name {
        "to_uint" | "to_int" => repeated(b"0", count),
        "split" => repeated(b"seven77,", count),
        "split_each" => repeated(b",", count),
        "split_none" | "split1" => repeated(b"seven777", count),
        "decode_letters" | "strict_letters" => repeated("\u{e9}\u{20ac}".as_bytes(), count),
        "decode_strays" | "drop_strays" => repeated(b"\xff", count),
        "decode_mixed" | "to_uint_order" | "to_int_order" => repeated(b"seven77\xff", count),
        _ => repeated(b"Words of ASCII. ", count),
    }
}

fn is_numeral(x: &[u8], base: u32) -> bool {
    !x.is_empty() && x.iter().all(|c| (*c as char).to_digit(base).is_some())
}

fn to_uint(x: &[u8], base: u32) -> Option<u64> {
    if !is_numeral(x, base) {
        return None;
    }
    let mut number = 0u64;
    for c in x {
        number = number.checked_mul(base as u64)?.checked_add((*c as char).to_digit(base)? as u64)?;
    }
    Some(number)
}

fn to_uint_order(x: &[u8], order: u64) -> Option<u64> {
    if order >= 3 || x.is_empty() || x.len() > 8 {
        return None;
    }
    let more = |number: u64, byte: &u8| number << 8 | *byte as u64;
    Some(if order == 0 { x.iter().rev().fold(0, more) } else { x.iter().fold(0, more) })
}

fn to_int_order(x: &[u8], order: u64) -> Option<i64> {
    let unused = 64 - 8 * x.len() as u32;
    Some((to_uint_order(x, order)? << unused) as i64 >> unused)
}

fn split(x: &[u8], d: u8) -> Vec<Rc<Vec<u8>>> {
    x.split(|b| *b == d).map(|part| Rc::new(part.to_vec())).collect()
}

fn decode(x: &[u8], fill: &str) -> String {
    let mut text = String::new();
    let mut rest = x;
    loop {
        match std::str::from_utf8(rest) {
            Ok(whole) => {
                text.push_str(whole);
                return text;
            }
            Err(error) => {
                let (whole, behind) = rest.split_at(error.valid_up_to());
                text.push_str(std::str::from_utf8(whole).unwrap());
                text.push_str(fill);
                rest = &behind[1..];
            }
        }
    }
}

fn decode_ascii(x: &[u8]) -> String {
    let mut text = String::with_capacity(x.len());
    for b in x {
        text.push(if *b < 128 { *b as char } else { '\u{FFFD}' });
    }
    text
}

fn called(name: &str, x: &[u8]) -> usize {
    match name {
        "to_uint" => to_uint(x, 10).is_some() as usize,
        "to_int" => to_uint(x, 10).is_some() as usize,
        "to_uint_order" => x
            .chunks(8)
            .fold(0u64, |all, group| all.wrapping_add(to_uint_order(group, 2).unwrap_or(0)))
            as usize,
        "to_int_order" => x.chunks(8).filter(|group| to_int_order(group, 0).unwrap_or(0) < 0).count(),
        "starts_with" => x.starts_with(std::hint::black_box(x)) as usize,
        "sub" => std::hint::black_box(x[..x.len()].to_vec()).len(),
        "split" | "split_each" | "split_none" => split(x, b',').len(),
        "split1" => match x.iter().position(|b| *b == b',') {
            Some(at) => std::hint::black_box((x[..at].to_vec(), x[at + 1..].to_vec())).0.len(),
            None => std::hint::black_box((x.to_vec(), Vec::<u8>::new())).0.len(),
        },
        "lower" => std::hint::black_box(x.to_ascii_lowercase()).len(),
        "upper" => std::hint::black_box(x.to_ascii_uppercase()).len(),
        "decode" | "decode_letters" | "decode_strays" | "decode_mixed" => {
            std::hint::black_box(decode(x, "\u{FFFD}")).len()
        }
        "decode_ascii" => std::hint::black_box(decode_ascii(x)).len(),
        "drop_strays" => std::hint::black_box(decode(x, "")).len(),
        "strict_letters" => match std::str::from_utf8(x) {
            Ok(text) => std::hint::black_box(text.to_owned()).len(),
            Err(_) => 0,
        },
        "encode" => match std::str::from_utf8(x) {
            Ok(text) => std::hint::black_box(text.as_bytes().to_vec()).len(),
            Err(_) => 0,
        },
        _ => 0,
    }
}

fn of_bytes(name: &str, count: u64) -> u64 {
    let x = operand(name, count);
    let mut all = 0u64;
    for _ in 0..TIMES {
        all = all.wrapping_add(called(name, std::hint::black_box(&x)) as u64);
    }
    all
}

// A value of 16 bytes whose lists are shared, as in the proved program.
#[allow(dead_code)]
#[derive(Clone)]
enum Value {
    Uint(u64),
    Vector(Rc<Vec<Value>>),
}

impl Value {
    fn number(&self) -> u64 {
        match self {
            Value::Uint(n) => *n,
            Value::Vector(_) => 0,
        }
    }
}

fn filled(count: u64) -> Rc<Vec<Value>> {
    let mut vector = Rc::new(Vec::new());
    for n in 0..count {
        Rc::make_mut(&mut vector).push(Value::Uint(n));
    }
    vector
}

fn run(name: &str, count: u64) -> u64 {
    match name {
        "push_back" => filled(count).len() as u64,
        "pop_back" => {
            let mut vector = filled(count);
            let mut all = 0u64;
            for _ in 0..count {
                if let Some(item) = Rc::make_mut(&mut vector).pop() {
                    all = all.wrapping_add(item.number());
                }
            }
            all
        }
        "ends" => {
            let vector = filled(count);
            let mut all = 0u64;
            for _ in 0..count {
                for item in [vector.first().cloned(), vector.last().cloned()] {
                    all = all.wrapping_add(item.map_or(0, |item| item.number()));
                }
            }
            all
        }
        "get" | "get_default" => {
            let first = if name == "get" { 0 } else { count };
            let mut map = BTreeMap::new();
            for n in 0..count {
                map.insert(n, Value::Uint(n));
            }
            let mut all = 0u64;
            for n in 0..count {
                let key = Value::Uint(n + first);
                let value = map.get(&(n + first)).unwrap_or(&key).clone();
                all = all.wrapping_add(value.number());
            }
            all
        }
        _ => of_bytes(name, count),
    }
}

fn main() {
    for line in std::io::stdin().lock().lines() {
        let line = line.unwrap();
        let (name, count) = line.split_once(' ').unwrap();
        println!("{}", run(name, count.parse().unwrap()));
    }
}

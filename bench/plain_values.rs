// The loops of `leaf_bench` on values in plain Rust, for a look at both times side by side. The values stand behind `Rc` alike.
#![allow(dead_code)]

use std::collections::BTreeMap;
use std::io::Read;
use std::rc::Rc;

const COUNT: u64 = 100_000;
const KEYS: u64 = 200_000;

#[derive(Clone, Copy)]
enum Width {
    W8,
    W64,
}

#[derive(Clone)]
enum Value {
    Void,
    Uint(Width, u64),
    Vector(Rc<Vec<Value>>),
    Map(Rc<Vec<(Value, Value)>>),
}

impl Value {
    fn push_back(&mut self, x: Value) {
        if let Value::Vector(items) = self {
            Rc::make_mut(items).push(x);
        }
    }

    fn insert(&mut self, key: u64, value: Value) {
        if let Value::Map(entries) = self {
            let own = Rc::make_mut(entries);
            match own.binary_search_by(|entry| match entry.0 {
                Value::Uint(_, n) => n.cmp(&key),
                _ => std::cmp::Ordering::Less,
            }) {
                Ok(i) => own[i].1 = value,
                Err(i) => own.insert(i, (Value::Uint(Width::W64, key), value)),
            }
        }
    }

    fn get_mut(&mut self, key: u64) -> Option<&mut Value> {
        match self {
            Value::Map(entries) => {
                let own = Rc::make_mut(entries);
                let found = own.binary_search_by(|entry| match entry.0 {
                    Value::Uint(_, n) => n.cmp(&key),
                    _ => std::cmp::Ordering::Less,
                });
                found.ok().map(move |i| &mut own[i].1)
            }
            _ => None,
        }
    }

    fn size(&self) -> usize {
        match std::hint::black_box(self) {
            Value::Vector(items) => items.len(),
            Value::Map(entries) => entries.len(),
            _ => 0,
        }
    }
}

fn filled(count: u64) -> Value {
    let mut vector = Value::Vector(Rc::new(Vec::new()));
    for n in 0..count {
        vector.push_back(Value::Uint(Width::W64, n));
    }
    vector
}

/// `KEYS` keys in an order, in an ordered map of the standard library.
fn ordered(key: impl Fn(u64) -> u64) -> BTreeMap<u64, Value> {
    let mut map = BTreeMap::new();
    for n in 0..KEYS {
        map.insert(key(n), Value::Void);
    }
    map
}

fn mixed(n: u64) -> u64 {
    n * 123_457 % KEYS
}

fn deleted() -> usize {
    let mut map = ordered(mixed);
    for n in 0..KEYS - COUNT {
        map.remove(&n);
    }
    map.len()
}

fn main() {
    let mut word = String::new();
    std::io::stdin().read_to_string(&mut word).unwrap();
    let count = match word.trim() {
        "push" => filled(COUNT).size(),
        "size" => {
            let vector = filled(COUNT);
            (0..COUNT).fold(0_usize, |all, _| all.wrapping_add(vector.size()))
        }
        "held" => {
            let mut vector = filled(COUNT / 2);
            let held = vector.clone();
            for n in 0..COUNT / 2 {
                vector.push_back(Value::Uint(Width::W64, n));
            }
            vector.size() + held.size()
        }
        "keys" => {
            let mut map = Value::Map(Rc::new(Vec::new()));
            for n in 0..COUNT {
                map.insert(n, Value::Void);
            }
            map.size()
        }
        "rising" => ordered(|n| n).len(),
        "falling" => ordered(|n| KEYS - n).len(),
        "mixed" => ordered(mixed).len(),
        "deleted" => deleted(),
        "deep" => {
            let mut map = Value::Map(Rc::new(Vec::new()));
            map.insert(7, Value::Vector(Rc::new(Vec::new())));
            for n in 0..COUNT {
                if let Some(inner) = map.get_mut(7) {
                    inner.push_back(Value::Uint(Width::W64, n));
                }
            }
            map.get_mut(7).map_or(0, |inner| inner.size())
        }
        "copy" => match filled(COUNT) {
            Value::Vector(items) => Value::Vector(Rc::new(items.to_vec())).size(),
            _ => 0,
        },
        _ => 0,
    };
    println!("{count}");
}

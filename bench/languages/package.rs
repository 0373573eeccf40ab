//! The package for Rust beside serde_cbor: package SHAPE CALL TIMES makes TIMES calls of `to_vec` or
//! `from_slice`, ours or theirs, or of none. What is read is let go.

use serde::{de::DeserializeOwned, Deserialize, Serialize};
use std::{collections::BTreeMap, env::args, hint::black_box};

#[derive(Serialize, Deserialize)]
struct Person {
    name: String,
    profession: String,
    year_of_birth: u16,
}

#[derive(Serialize, Deserialize)]
struct Post {
    text: String,
    at: u64,
    ok: bool,
    re: Option<u32>,
    tags: Vec<String>,
    sizes: Vec<u32>,
}

fn person() -> Person {
    Person {
        name: "Grace Hopper".into(),
        profession: "computer scientist".into(),
        year_of_birth: 1906,
    }
}

fn post(at: u64) -> Post {
    Post {
        text: format!("number {at} is a text of some fifty bytes, as many are"),
        at,
        ok: true,
        re: None,
        tags: vec!["a".into(), "some".into()],
        sizes: vec![1, 300, 70_000],
    }
}

fn run<T: Serialize + DeserializeOwned>(value: T, call: &str, times: usize) {
    let (ours, theirs) = (dagcbor::to_vec(&value).unwrap(), serde_cbor::to_vec(&value).unwrap());
    assert_eq!(ours.len(), theirs.len());
    for _ in 0..times {
        match call {
            "to_vec" => drop(black_box(dagcbor::to_vec(&value).unwrap())),
            "their_to_vec" => drop(black_box(serde_cbor::to_vec(&value).unwrap())),
            "from_slice" => drop(black_box(dagcbor::from_slice::<T>(&ours).unwrap())),
            _ => drop(black_box(serde_cbor::from_slice::<T>(&theirs).unwrap())),
        }
    }
}

fn main() {
    let words: Vec<String> = args().collect();
    let (call, times) = (&words[2], words[3].parse().unwrap());
    match words[1].as_str() {
        "person" => run(person(), call, times),
        "people" => run((0..1000).map(|_| person()).collect::<Vec<_>>(), call, times),
        "posts" => run((0..1000).map(post).collect::<Vec<_>>(), call, times),
        "post" => run(post(0), call, times),
        "texts" => {
            let texts = (0..2000).map(|it| format!("текст номер {it} из слов, которые пишут"));
            run(texts.collect::<Vec<_>>(), call, times)
        }
        "integers" => run((256..5000).collect::<Vec<u16>>(), call, times),
        _ => {
            let pairs = (0..1000).map(|it| (format!("key {it}"), it));
            run(pairs.collect::<BTreeMap<_, u32>>(), call, times)
        }
    }
}

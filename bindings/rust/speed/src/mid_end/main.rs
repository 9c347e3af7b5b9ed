//! Simplifies the values of a made-up e-graph by the rules of `examples/mid-end`.
#![allow(dead_code)]

mod context;
mod graph;

use context::*;
use graph::*;
use speed::{Random, Wanted};

/// The code of the rules. What it doesn't declare comes from here.
mod code {
    include!(concat!(env!("OUT_DIR"), "/mid-end.rs"));
}

/// More results than a call gives.
const MAX_ISLE_RETURNS: usize = 10_000;
type ConstructorVec<T> = Vec<T>;

fn main() {
    let wanted = Wanted::of_command_line();
    let mut graph = Graph::random(&mut Random::new(1), 10_000);
    let size = graph.classes.len();
    let mut results = Vec::new();
    let mut found = 0;
    for call in 0..wanted.calls {
        graph.classes.truncate(size);
        results.clear();
        let value = Value((call % size) as u32);
        code::constructor_simplify(&mut graph, value, &mut results);
        found += results.len();
        if wanted.show {
            let mut texts: Vec<String> = results.iter().map(|value| graph.text(*value)).collect();
            texts.sort();
            println!("{}: {texts:?}", graph.text(value));
        }
    }
    println!("{} calls, {found} results", wanted.calls);
}

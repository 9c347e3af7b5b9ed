//! Lowers the instructions of a made-up function by the rules of `examples/backend`.
#![allow(dead_code)]

mod context;
mod function;
mod machine;

use context::*;
use function::*;
use machine::*;
use speed::{Random, Wanted};

/// The code of the rules. What it doesn't declare comes from here.
mod code {
    include!(concat!(env!("OUT_DIR"), "/backend.rs"));
}

fn main() {
    let wanted = Wanted::of_command_line();
    let function = Function::random(&mut Random::new(1), 10_000);
    let mut lowering = Lowering::new(&function);
    let (mut lowered, mut emitted) = (0, 0);
    for call in 0..wanted.calls {
        lowering.begin();
        let inst = function.inst(call);
        let output = code::constructor_lower(&mut lowering, inst);
        lowered += usize::from(output.is_some());
        emitted += lowering.emitted.len();
        if wanted.show {
            println!(
                "{:?} {output:?} {:?}",
                function.data(inst),
                lowering.emitted
            );
        }
    }
    println!(
        "{} calls, of which {lowered} found a rule; {emitted} instructions",
        wanted.calls
    );
}

//! The entries open to callers, compared with the oracle.

mod leaves;
mod plan;

use std::process::ExitCode;

use harness::comparison::{self, Comparison};

fn main() -> ExitCode {
    let comparisons: [Comparison; 6] = [
        ("root", leaves::root),
        ("hash", leaves::hash),
        ("radical-inverse", leaves::radical_inverse),
        ("quotas", leaves::quotas),
        ("plan", plan::mixed),
        ("recorded", plan::recorded),
    ];
    comparison::run(&comparisons)
}

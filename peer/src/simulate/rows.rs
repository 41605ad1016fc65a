//! A plan as rows to be read.

use std::fmt::Write;
use std::iter::repeat;

use crate::image::Plan;

/// The plan, a line for each row, each word with its name.
pub fn rows(plan: &Plan) -> String {
    let mut text = format!("H {}, P {}\n", plan.cycle, plan.precision);
    write(&mut text, "core", "node d v", &plan.cores);
    write(&mut text, "VCPU", "core", &plan.vcpus);
    write(&mut text, "task", "VCPU mask T C D", &plan.tasks);
    write(&mut text, "window", "VCPU start length", &plan.windows);
    write(&mut text, "piece", "task job start length", &plan.pieces);
    write(&mut text, "link", "from to delay rate lowest", &plan.links);
    let stream = "sender receiver E hops payload queue";
    write(&mut text, "stream", stream, &plan.streams);
    write(
        &mut text,
        "frame",
        "stream job hop link start",
        &plan.frames,
    );
    write(&mut text, "buffer", "number writer reader", &plan.buffers);
    write(&mut text, "chain", "first last limit", &plan.chains);
    text
}

/// A line for each row. Words that have no name here are told all the same.
fn write<const W: usize>(text: &mut String, table: &str, names: &str, rows: &[[u32; W]]) {
    for (row, words) in rows.iter().enumerate() {
        let named = names.split(' ').chain(repeat("more")).zip(words);
        let named: Vec<String> = named.map(|(name, word)| format!("{name} {word}")).collect();
        writeln!(text, "{table} {row}: {}", named.join(", ")).expect("a string takes all");
    }
}

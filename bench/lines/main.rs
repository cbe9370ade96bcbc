//! The program `tariffs` once more in plain Rust: an image and seconds in, a line for each look out.
#[path = "../reference/mod.rs"]
#[allow(dead_code)]
mod reference;

use reference::look::Tables;
use reference::summer::Rule;
use std::io::{BufWriter, Read, Write};

fn main() -> std::io::Result<()> {
    let mut input = Vec::new();
    std::io::stdin().read_to_end(&mut input)?;
    let mut out = BufWriter::new(std::io::stdout().lock());
    if input.len() < 837 {
        return writeln!(out, "short");
    }
    let (image, seconds) = input.split_at(837);
    let tables = Tables::open(image);
    for second in seconds.chunks_exact(4) {
        let l = tables.look(Rule::Europe, u32::from_be_bytes(second.try_into().unwrap()));
        writeln!(
            out,
            "{} {} {} {} {} {} {} {}",
            l.local_time, l.row, l.plan, l.event_plan, l.event, l.days_back, l.tariff, l.last_second
        )?;
    }
    out.flush()
}

//! oracle [--batch] [--crossings] [--source-order | --document-order]: reads a job from standard input and prints what the Rust gives.
//!
//!   cell=INDEX BITS     each cell, the distance's bits as eight hex digits
//!   steps=N             propagation steps, as the source's log counts them
//!   row=LAYER COUNT     what the cells of each layer along the upright axis count together in the job's edition of the table: counted off the
//!                       field, the Rust has no rows; none where there is no such edition
//!   crossing=I X Y Z    with --crossings: the ray pass's counts of each cell; with Normal signs there are none
//!
//! or one line: `panic=WORDS` where the source panics, `unreadable` where the text is no job.
//! With --batch the input is a stream of jobs as tools/jobs prints it, and so is the output.
//!
//! A job is answered by the unmodified Rust, and one with Normal signs by the Rust with the queue's order of document 02, §8, put in. With
//! --source-order all are answered by the unmodified one, and with --document-order all by the other.

use mesh_oracle::{crossings, rows, run_in, text, Job, Order};
use std::fmt::Write as _;
use std::io::{BufRead, Read, Write};

fn main() {
    let has = |name: &str| std::env::args().skip(1).any(|arg| arg == name);
    let order = match () {
        _ if has("--source-order") => Some(Order::Source),
        _ if has("--document-order") => Some(Order::Document),
        _ => None,
    };
    let answer = |text: &[u8]| answer(text, order, has("--crossings"));
    let mut input = std::io::stdin().lock();
    let mut output = std::io::stdout().lock();
    if !has("--batch") {
        let mut job = Vec::new();
        input.read_to_end(&mut job).expect("standard input");
        output.write_all(answer(&job).as_bytes()).expect("standard output");
        return;
    }
    let mut header = String::new();
    while input.read_line(&mut header).expect("standard input") > 0 {
        let (name, bytes) = header.trim_end().rsplit_once(' ').expect("job=INDEX KIND BYTES");
        let mut job = vec![0; bytes.parse().expect("a number of bytes")];
        input.read_exact(&mut job).expect("the job's bytes");
        let answer = answer(&job);
        write!(output, "{name} {}\n{answer}", answer.len()).expect("standard output");
        header.clear();
    }
}

/// With the queue in this order, or in that of the job's method.
fn answer(bytes: &[u8], order: Option<Order>, with_crossings: bool) -> String {
    let Some(job) = text::read(bytes) else { return "unreadable\n".to_string() };
    let order = order.unwrap_or(job.sign.order());
    listing(&job, order, with_crossings).unwrap_or_else(|words| format!("panic={words}\n"))
}

fn listing(job: &Job, order: Order, with_crossings: bool) -> Result<String, String> {
    let answer = run_in(order, job.lent())?;
    let mut out = String::new();
    for (cell, distance) in answer.field.iter().enumerate() {
        writeln!(out, "cell={cell} {:08x}", distance.to_bits()).unwrap();
    }
    writeln!(out, "steps={}", answer.steps).unwrap();
    let rows = match rows(job.lent(), &answer.field) {
        Err(14) => Vec::new(),
        rows => rows.expect("a text has one of three axes"),
    };
    for (layer, count) in rows.iter().enumerate() {
        writeln!(out, "row={layer} {count}").unwrap();
    }
    if with_crossings {
        for (cell, [x, y, z]) in crossings(job.lent())?.iter().enumerate() {
            writeln!(out, "crossing={cell} {x} {y} {z}").unwrap();
        }
    }
    Ok(out)
}

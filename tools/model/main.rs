//! model [--batch] [--large] [--crossings]: reads a job from standard input and prints the listing that document 01 owes it.
//! --large lifts the job program's own limits. --crossings adds a line `crossing=INDEX X Y Z` for each cell.
//! model --convert [--batch] [--large]: prints what the converter of document 02, §7, owes the text instead; --large lifts the old
//! limits.
//! model --tidy [--batch] [--large]: prints what the tidier of document 02, §10, owes it; --large lifts the job program's limits.
//! With --batch the input is a stream of jobs as tools/jobs prints it, and so is the output.

use std::io::{BufRead, Read, Write};

fn main() {
    let has = |name: &str| std::env::args().skip(1).any(|arg| arg == name);
    let (large, crossings) = (has("--large"), has("--crossings"));
    let (convert, tidy) = (has("--convert"), has("--tidy"));
    let owed = |text: &[u8]| match (convert, tidy) {
        (true, _) if large => model::convert::convert_any(text),
        (true, _) => model::convert::convert(text),
        (_, true) => model::tidy::listing(text, large),
        _ => model::text::listing(text, large, crossings).into_bytes(),
    };
    let mut input = std::io::stdin().lock();
    let mut output = std::io::stdout().lock();
    if !has("--batch") {
        let mut job = Vec::new();
        input.read_to_end(&mut job).expect("standard input");
        output.write_all(&owed(&job)).expect("standard output");
        return;
    }
    let mut header = String::new();
    while input.read_line(&mut header).expect("standard input") > 0 {
        let (name, bytes) = header.trim_end().rsplit_once(' ').expect("job=INDEX KIND BYTES");
        let mut job = vec![0; bytes.parse().expect("a number of bytes")];
        input.read_exact(&mut job).expect("the job's bytes");
        let owed = owed(&job);
        writeln!(output, "{name} {}", owed.len()).expect("standard output");
        output.write_all(&owed).expect("standard output");
        header.clear();
    }
}

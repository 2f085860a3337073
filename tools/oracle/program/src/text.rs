//! Reads a job in document 01's text, of any size. Its limits and the lines `queue=` and `pops=` mean nothing
//! to the Rust: they are looked at for their form and dropped.

use crate::{Job, Sign};

/// More cells than this are not worth trying: document 01 ends at 1,048,576.
const MOST_CELLS: u128 = 1 << 24;

pub fn read(text: &[u8]) -> Option<Job> {
    let text = std::str::from_utf8(text).ok()?.strip_suffix('\n')?;
    let mut lines = text.split('\n');
    let count = three(value(&mut lines, "count")?, decimal)?;
    let first = three(value(&mut lines, "first")?, float)?;
    let size = three(value(&mut lines, "size")?, float)?;
    // One of the three lines that may be missing (document 02, §9): without it the axis is z, and none has another spelling.
    let upright = match lines.clone().next()? {
        "upright=x" => Some(0),
        "upright=y" => Some(1),
        "upright=z" => Some(2),
        _ => None,
    };
    let mut lines = lines.skip(usize::from(upright.is_some()));
    let upright = upright.unwrap_or(2);
    let strip = match value(&mut lines, "topology")? {
        "list" => false,
        "strip" => true,
        _ => return None,
    };
    // Another (§8); it has one spelling.
    let said = lines.clone().next()? == "sign=normal";
    let sign = if said { Sign::Normal } else { Sign::Raycast };
    let mut lines = lines.skip(usize::from(said));
    let vertices = decimal(value(&mut lines, "vertices")?)?;
    let vertices = (0..vertices).map(|_| three(value(&mut lines, "v")?, float)).collect::<Option<Vec<_>>>()?;
    let indices = match value(&mut lines, "indices")? {
        "none" => None,
        n => Some((0..decimal(n)?).map(|_| decimal(value(&mut lines, "i")?)).collect::<Option<Vec<_>>>()?),
    };
    decimal(value(&mut lines, "queue")?)?;
    decimal(value(&mut lines, "pops")?)?;
    // And the third, the last of all (§11): without it the edition is 1, and any number can be said.
    let edition = match lines.next() {
        None => 1,
        Some(line) => decimal(line.strip_prefix("table=")?)?,
    };
    let cells = count.iter().fold(1u128, |cells, &n| cells * u128::from(n));
    (lines.next().is_none() && cells <= MOST_CELLS).then_some(Job { count, first, size, upright, strip, sign, vertices, indices, edition })
}

fn value<'a>(lines: &mut impl Iterator<Item = &'a str>, key: &str) -> Option<&'a str> {
    lines.next()?.strip_prefix(key)?.strip_prefix('=')
}

fn three<T: Copy>(text: &str, one: fn(&str) -> Option<T>) -> Option<[T; 3]> {
    let parts = text.split(' ').map(one).collect::<Option<Vec<T>>>()?;
    parts.try_into().ok()
}

fn decimal(text: &str) -> Option<u32> {
    let plain = !text.is_empty() && text.bytes().all(|b| b.is_ascii_digit()) && (text == "0" || !text.starts_with('0'));
    if plain {
        text.parse().ok()
    } else {
        None
    }
}

fn float(text: &str) -> Option<f32> {
    let plain = text.len() == 8 && text.bytes().all(|b| matches!(b, b'0'..=b'9' | b'a'..=b'f'));
    if plain {
        u32::from_str_radix(text, 16).ok().map(f32::from_bits)
    } else {
        None
    }
}

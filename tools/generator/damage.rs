//! Damaged texts: each takes a readable job's text and spoils it in one way. A few ways leave it readable now and
//! then (a changed digit); the model says what is owed.

use crate::random::Random;

pub const WAYS: [&str; 40] = [
    "crlf",
    "no-last-lf",
    "two-last-lf",
    "leading-zero",
    "upper-hex",
    "double-space",
    "trailing-space",
    "leading-space",
    "tab",
    "trailing-byte",
    "empty",
    "only-lf",
    "missing-line",
    "swapped-lines",
    "doubled-line",
    "above-u32",
    "far-above-u32",
    "plus",
    "minus",
    "short-hex",
    "long-hex",
    "0x",
    "two-values",
    "four-values",
    "no-value",
    "other-topology",
    "upper-key",
    "no-equals",
    "count-too-high",
    "count-too-low",
    "none-with-i",
    "upper-none",
    "nul",
    "high-byte",
    "byte-order-mark",
    "cut-short",
    "one-byte-other",
    "one-byte-less",
    "one-byte-more",
    "long-noise",
];

/// The ways of spoiling the line `sign=normal`: what stands for it, and before which line ("vertices=" is its own place). "" is the end.
pub const SIGNS: [(&str, &str); 32] = [
    ("sign=raycast", "vertices="),
    ("sign=normal", "topology="),
    ("sign=normal", ""),
    ("sign=Normal", "vertices="),
    ("sign=normal", "indices="),
    ("sign=normal\nsign=normal", "vertices="),
    ("sign=normals", "vertices="),
    ("sign=normal", "v="),
    ("sign=", "vertices="),
    ("sign=normal", "queue="),
    ("sign=normal\nsign=raycast", "vertices="),
    ("sign=norma", "vertices="),
    ("sign=normal", "size="),
    ("sign=normal ", "vertices="),
    ("sign=normal", "pops="),
    (" sign=normal", "vertices="),
    ("sign= normal", "vertices="),
    ("sign=normal", "i="),
    ("sign=normal\r", "vertices="),
    ("sign", "vertices="),
    ("sign=normal", "first="),
    ("normal", "vertices="),
    ("sign:normal", "vertices="),
    ("sign=normal", "count="),
    ("sign==normal", "vertices="),
    ("signs=normal", "vertices="),
    ("Sign=normal", "vertices="),
    ("sign=NORMAL", "vertices="),
    ("sign=1", "vertices="),
    ("sign=none", "vertices="),
    ("sign=normal normal", "vertices="),
    ("\nsign=normal", "vertices="),
];

/// The same of the line `upright=` (document 02, §9), whose own place is before "topology=". In it `upright=x`, `y` and `z` alone are a job's.
pub const UPRIGHTS: [(&str, &str); 38] = [
    ("upright=w", "topology="),
    ("upright=x", "vertices="),
    ("upright=", "topology="),
    ("upright=X", "topology="),
    ("upright=x\nupright=x", "topology="),
    ("upright=y", "size="),
    ("upright=2", "topology="),
    ("upright=z\nupright=z", "topology="),
    ("upright=z", "vertices="),
    ("upright=y", ""),
    ("upright=x\nupright=z", "topology="),
    ("upright=xy", "topology="),
    ("upright=z", "first="),
    ("upright=y ", "topology="),
    ("upright=3", "topology="),
    ("upright=x", "sign="),
    (" upright=y", "topology="),
    ("upright=z", "size="),
    ("upright= x", "topology="),
    ("upright=y\r", "topology="),
    ("upright", "topology="),
    ("upright=x", "count="),
    ("x", "topology="),
    ("upright:y", "topology="),
    ("upright=z", ""),
    ("upright==y", "topology="),
    ("uprights=x", "topology="),
    ("Upright=y", "topology="),
    ("UPRIGHT=X", "topology="),
    ("upright=x", "v="),
    ("upright=none", "topology="),
    ("upright=x y z", "topology="),
    ("upright=y", "indices="),
    ("\nupright=x", "topology="),
    ("upright=y", "queue="),
    ("upright=-x", "topology="),
    ("upright=x", "pops="),
    ("upright=0", "topology="),
];

/// The same of the line `table=` (document 02, §11), whose own place is the end, where any number without leading zeros is a job's. "$" is what stands
/// behind the last line feed, as it is.
pub const TABLES: [(&str, &str); 60] = [
    ("table=2", "pops="),
    ("table=2\ntable=2", ""),
    ("table=02", ""),
    ("table=2", "$"),
    ("table=", ""),
    ("\ntable=2", ""),
    ("table=4294967296", ""),
    ("Table=2", ""),
    ("table=2\nx", "$"),
    ("table=2", "queue="),
    ("table=2\n\n", "$"),
    ("table=1", "pops="),
    ("table=2 ", ""),
    ("table=1\ntable=2", ""),
    ("table=2\r", ""),
    ("table=2", "sign="),
    ("table=01", ""),
    ("table=2\n ", "$"),
    (" table=2", ""),
    ("table=1", "$"),
    ("table= 2", ""),
    ("table=2", "upright="),
    ("table=2\ntable=1", ""),
    ("table=-1", ""),
    ("table=+2", ""),
    ("table=2", "count="),
    ("table=00", ""),
    ("table", ""),
    ("table=two", ""),
    ("table=2", "topology="),
    ("table==2", ""),
    ("table=1\ntable=1", ""),
    ("TABLE=2", ""),
    ("table=4294967297", ""),
    ("tables=2", ""),
    ("table=2", "vertices="),
    ("table:2", ""),
    ("table=2\n\0", "$"),
    ("2", ""),
    ("table=1 2", ""),
    ("table=2", "indices="),
    ("table=18446744073709551618", ""),
    ("table=none", ""),
    ("table=2", "v="),
    ("table=0x2", ""),
    ("table=1", "count="),
    ("table=2.0", ""),
    ("table=2", "size="),
    ("table=2\npops=100", ""),
    ("table=00000002", ""),
    ("tabl=2", ""),
    ("table=2", "i="),
    ("edition=2", ""),
    ("table=3", "pops="),
    ("table 2", ""),
    ("table=2", "first="),
    ("table=2,", ""),
    ("table=2\ntable=3", ""),
    ("table=3", "$"),
    ("table=1", "queue="),
];

/// The text with another spelling for the line of this key, in another place or in its own.
pub fn damage_line(key: &str, (spelling, place): (&str, &str), text: &str) -> Vec<u8> {
    let mut lines: Vec<&str> = text.lines().filter(|line| !line.starts_with(key)).collect();
    if place == "$" {
        return (lines.join("\n") + "\n" + spelling).into_bytes();
    }
    let found = lines.iter().position(|line| !place.is_empty() && line.starts_with(place));
    lines.insert(found.unwrap_or(lines.len()), spelling);
    (lines.join("\n") + "\n").into_bytes()
}

pub fn damage(way: &str, text: &str, r: &mut Random) -> Vec<u8> {
    let mut lines: Vec<String> = text.lines().map(str::to_string).collect();
    let at = r.below(lines.len() as u64) as usize;
    let other = (at + 1) % lines.len();
    let tail = |lines: &[String]| (lines.join("\n") + "\n").into_bytes();
    // A line whose value begins with a digit, or one of floats.
    let decimal = pick_line(&lines, r, |l| {
        !is_floats(l) && l.split_once('=').unwrap().1.starts_with(|c: char| c.is_ascii_digit())
    });
    let floats = pick_line(&lines, r, is_floats);
    let triple = pick_line(&lines, r, |l| l.contains(' '));
    let value = |line: &str| line.split_once('=').map(|(key, value)| (key.to_string(), value.to_string())).unwrap();
    match way {
        "crlf" => return text.replace('\n', "\r\n").into_bytes(),
        "no-last-lf" => return text.strip_suffix('\n').unwrap().into(),
        "two-last-lf" => return format!("{text}\n").into(),
        "empty" => return Vec::new(),
        "only-lf" => return b"\n".to_vec(),
        "trailing-byte" => return format!("{text}{}", r.pick(&["x", " ", "\0", "p", "="])).into(),
        "cut-short" => return text.as_bytes()[..r.below(text.len() as u64) as usize].to_vec(),
        "byte-order-mark" => return format!("\u{feff}{text}").into(),
        "long-noise" => return format!("{text}{}", "pops=1\n".repeat(r.between(1, 9_000) as usize)).into(),
        "one-byte-other" | "one-byte-less" | "one-byte-more" | "nul" | "high-byte" => return one_byte(way, text, r),
        "leading-zero" => {
            let (key, v) = value(&lines[decimal]);
            lines[decimal] = format!("{key}=0{v}");
        }
        "upper-hex" => {
            // A letter is put in, so that the case shows.
            let (key, v) = value(&lines[floats]);
            lines[floats] = format!("{key}={}A{}", &v[..7], &v[8..]);
        }
        "double-space" => lines[triple] = lines[triple].replacen(' ', "  ", 1),
        "tab" => lines[triple] = lines[triple].replacen(' ', "\t", 1),
        "trailing-space" => lines[at].push(' '),
        "leading-space" => lines[at].insert(0, ' '),
        "missing-line" => drop(lines.remove(at)),
        "swapped-lines" => lines.swap(at, other),
        "doubled-line" => lines.insert(at, lines[at].clone()),
        "above-u32" => lines[decimal] = format!("{}=4294967296", value(&lines[decimal]).0),
        "far-above-u32" => {
            lines[decimal] = format!(
                "{}={}",
                value(&lines[decimal]).0,
                r.pick(&["18446744073709551616", "42949672960", "99999999999999999999999999999999999999999"])
            );
        }
        "plus" => lines[decimal] = lines[decimal].replacen('=', "=+", 1),
        "minus" => lines[decimal] = lines[decimal].replacen('=', "=-", 1),
        "short-hex" => drop(lines[floats].pop()),
        "long-hex" => lines[floats].push('0'),
        "0x" => lines[floats] = lines[floats].replacen('=', "=0x", 1),
        "two-values" => lines[triple] = lines[triple].rsplit_once(' ').unwrap().0.to_string(),
        "four-values" => {
            let last = lines[triple].rsplit_once(' ').unwrap().1.to_string();
            lines[triple] = format!("{} {last}", lines[triple]);
        }
        "no-value" => lines[at] = format!("{}=", value(&lines[at]).0),
        "other-topology" => {
            let line = lines.iter().position(|l| l.starts_with("topology=")).unwrap();
            lines[line] = format!("topology={}", r.pick(&["fan", "List", "lists", "stri", "", "list strip"]));
        }
        "upper-key" => lines[at] = lines[at].replacen(|c: char| c.is_ascii_lowercase(), "V", 1),
        "no-equals" => lines[at] = lines[at].replacen('=', r.pick(&[" ", ":", "", "=="]), 1),
        "count-too-high" | "count-too-low" => {
            let line = pick_line(&lines, r, |l| l.starts_with("vertices=") || l.starts_with("indices="));
            let (key, v) = value(&lines[line]);
            let n: u32 = v.parse().unwrap_or(0);
            lines[line] = format!("{key}={}", if way == "count-too-high" { n + 1 } else { n.saturating_sub(1) });
        }
        "none-with-i" => {
            let line = lines.iter().position(|l| l.starts_with("indices=")).unwrap();
            lines[line] = "indices=none".to_string();
            lines.insert(line + 1, "i=0".to_string());
        }
        "upper-none" => {
            let line = lines.iter().position(|l| l.starts_with("indices=")).unwrap();
            lines[line] = format!("indices={}", r.pick(&["None", "nones", "non", "none ", "-"]));
        }
        _ => unreachable!("no such way: {way}"),
    }
    tail(&lines)
}

fn one_byte(way: &str, text: &str, r: &mut Random) -> Vec<u8> {
    let mut bytes = text.as_bytes().to_vec();
    let at = r.below(bytes.len() as u64) as usize;
    match way {
        "one-byte-other" => bytes[at] = r.pick(b"0123456789abcdefgATZvi= \n\r\t,.-"),
        "one-byte-less" => drop(bytes.remove(at)),
        "one-byte-more" => bytes.insert(at, r.pick(b"0123456789abcdef= \n")),
        "nul" => bytes[at] = 0,
        _ => bytes[at] |= 0x80,
    }
    bytes
}

fn is_floats(line: &str) -> bool {
    ["first=", "size=", "v="].iter().any(|key| line.starts_with(key))
}

/// A random one of the lines that fit. Every job has one.
fn pick_line(lines: &[String], r: &mut Random, fits: impl Fn(&str) -> bool) -> usize {
    let found: Vec<usize> = (0..lines.len()).filter(|&i| fits(&lines[i])).collect();
    r.pick(&found)
}

// The same work in plain Rust, as a partner for speed: reads a document of environment resources, compares each with
// the file of its variable, and prints the lines. It has no limits, no refusals and no proofs.
use std::fmt::Write as _;
use std::io::{Read, Write};

fn between<'a>(line: &'a str, front: &str) -> Option<&'a str> {
    line.trim().strip_prefix(front)?.strip_suffix("\";")
}

fn main() {
    let host = std::env::args().nth(1).expect("the host's folder");
    let mut text = String::new();
    std::io::stdin().read_to_string(&mut text).expect("the document");
    let mut out = String::new();
    let (mut id, mut name, mut total, mut good) = ("", "", 0, 0);
    for line in text.lines() {
        if let Some(found) = between(line, "ResourceID = \"") {
            id = found;
        } else if let Some(found) = between(line, "Name = \"") {
            name = found;
        } else if let Some(value) = between(line, "Value = \"") {
            let hex: String = name.to_ascii_lowercase().bytes().map(|b| format!("{b:02X}")).collect();
            let yes = std::fs::read(format!("{host}/env/{hex}")).is_ok_and(|held| held == value.as_bytes());
            total += 1;
            good += usize::from(yes);
            writeln!(out, "test \"{id}\" {}", if yes { "yes" } else { "no" }).expect("a line");
        }
    }
    writeln!(out, "resources {total} succeeded {good}").expect("a line");
    writeln!(out, "{}", if total == good { "compliant".into() } else { format!("not compliant {}", total - good) }).expect("a line");
    std::io::stdout().write_all(out.as_bytes()).expect("the output");
}

// The same work in plain Rust, as a partner for speed: reads a document of File resources, compares each with its file,
// which no link leads to, and prints the lines. It has no limits, no refusals and no proofs.
use std::fmt::Write as _;
use std::io::{Read, Write};
use std::path::Path;

fn between<'a>(line: &'a str, front: &str) -> Option<&'a str> {
    line.trim().strip_prefix(front)?.strip_suffix("\";")
}

// Every name on the way is a folder and the last a file, none of them a link.
fn is_plain(root: &Path, path: &str) -> bool {
    let mut here = root.to_path_buf();
    let mut names = path.split('/').peekable();
    while let Some(name) = names.next() {
        here.push(name);
        let Ok(found) = std::fs::symlink_metadata(&here) else { return false };
        if if names.peek().is_some() { !found.is_dir() } else { !found.is_file() } {
            return false;
        }
    }
    true
}

fn main() {
    let host = std::env::args().nth(1).expect("the host's folder");
    let root = Path::new(&host).join("root");
    let mut text = String::new();
    std::io::stdin().read_to_string(&mut text).expect("the document");
    let mut out = String::new();
    let (mut id, mut path, mut total, mut good) = ("", "", 0, 0);
    for line in text.lines() {
        if let Some(found) = between(line, "ResourceID = \"") {
            id = found;
        } else if let Some(found) = between(line, "DestinationPath = \"/") {
            path = found;
        } else if let Some(contents) = between(line, "Contents = \"") {
            let yes = is_plain(&root, path) && std::fs::read(root.join(path)).is_ok_and(|held| held == contents.as_bytes());
            total += 1;
            good += usize::from(yes);
            writeln!(out, "test \"{id}\" {}", if yes { "yes" } else { "no" }).expect("a line");
        }
    }
    writeln!(out, "resources {total} succeeded {good}").expect("a line");
    writeln!(out, "{}", if total == good { "compliant".into() } else { format!("not compliant {}", total - good) }).expect("a line");
    std::io::stdout().write_all(out.as_bytes()).expect("the output");
}

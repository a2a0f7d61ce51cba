// The same work in plain Rust, as a partner for speed: reads a document into instances and prints their canonical text.
// It tells no place of a fault, and has no limits, no other encoding than UTF-8 and no proofs.
use std::io::{Read, Write};

struct Instance {
    class: String,
    alias: Option<String>,
    properties: Vec<(String, Value)>,
}

enum Value {
    One(Scalar),
    Many(Vec<Scalar>),
}

enum Scalar {
    Text(String),
    Integer(i128),
    Bool(bool),
    Null,
    Alias(String),
}

struct Reader<'a> {
    left: &'a str,
}

impl Reader<'_> {
    fn gap(&mut self) {
        loop {
            self.left = self.left.trim_start_matches([' ', '\t', '\n', '\r']);
            if let Some(rest) = self.left.strip_prefix("//") {
                self.left = rest.split_once('\n').map_or("", |(_, behind)| behind);
            } else if let Some(rest) = self.left.strip_prefix("/*") {
                self.left = rest.split_once("*/").expect("the end of a comment").1;
            } else {
                return;
            }
        }
    }

    fn takes(&mut self, mark: char) -> bool {
        self.gap();
        let Some(rest) = self.left.strip_prefix(mark) else { return false };
        self.left = rest;
        true
    }

    fn mark(&mut self, mark: char) {
        assert!(self.takes(mark), "a {mark}");
    }

    fn run(&mut self, goes_on: impl Fn(char) -> bool) -> String {
        let end = self.left.find(|c| !goes_on(c)).unwrap_or(self.left.len());
        let (run, rest) = self.left.split_at(end);
        self.left = rest;
        run.to_string()
    }

    fn name(&mut self) -> String {
        self.gap();
        let name = self.run(|c| c == '_' || c.is_ascii_alphanumeric() || c >= '\u{80}');
        assert!(name.starts_with(|c: char| !c.is_ascii_digit()), "an identifier");
        name
    }

    fn keyword(&mut self, word: &str) {
        assert!(self.name().eq_ignore_ascii_case(word), "{word}");
    }

    fn literal(&mut self, text: &mut String) {
        self.mark('"');
        loop {
            let end = self.left.find(['"', '\\']).expect("the end of a literal");
            text.push_str(&self.left[..end]);
            let quote = self.left[end..].starts_with('"');
            self.left = &self.left[end + 1..];
            if quote {
                return;
            }
            let escape = self.left.chars().next().expect("an escape");
            self.left = &self.left[escape.len_utf8()..];
            text.push(match escape {
                'b' => '\u{8}',
                't' => '\t',
                'n' => '\n',
                'f' => '\u{c}',
                'r' => '\r',
                '"' | '\'' | '\\' => escape,
                'x' | 'X' => {
                    let count = self.left.chars().take(4).take_while(char::is_ascii_hexdigit).count();
                    let (digits, rest) = self.left.split_at(count);
                    self.left = rest;
                    u32::from_str_radix(digits, 16).ok().and_then(char::from_u32).expect("a character")
                }
                _ => panic!("an escape"),
            });
        }
    }

    fn integer(&mut self) -> i128 {
        let word = self.run(|c| c == '+' || c == '-' || c.is_ascii_alphanumeric());
        let (sign, digits) = match word.strip_prefix('-') {
            Some(digits) => (-1, digits),
            None => (1, word.trim_start_matches('+')),
        };
        let lower = digits.to_ascii_lowercase();
        let (base, digits) = if let Some(digits) = lower.strip_prefix("0x") {
            (16, digits)
        } else if let Some(digits) = lower.strip_suffix('b') {
            (2, digits)
        } else if lower.starts_with('0') {
            (8, lower.as_str())
        } else {
            (10, lower.as_str())
        };
        sign * i128::from_str_radix(digits, base).expect("an integer")
    }

    fn scalar(&mut self) -> Scalar {
        self.gap();
        match self.left.chars().next().expect("a value") {
            '"' => {
                let mut text = String::new();
                while self.left.starts_with('"') {
                    self.literal(&mut text);
                    self.gap();
                }
                Scalar::Text(text)
            }
            '$' => {
                self.mark('$');
                Scalar::Alias(self.name())
            }
            '+' | '-' | '0'..='9' => Scalar::Integer(self.integer()),
            _ => match self.name().to_ascii_lowercase().as_str() {
                "true" => Scalar::Bool(true),
                "false" => Scalar::Bool(false),
                "null" => Scalar::Null,
                _ => panic!("a value"),
            },
        }
    }

    fn value(&mut self) -> Value {
        if !self.takes('{') {
            return Value::One(self.scalar());
        }
        let mut elements = Vec::new();
        if !self.takes('}') {
            elements.push(self.scalar());
            while self.takes(',') {
                elements.push(self.scalar());
            }
            self.mark('}');
        }
        Value::Many(elements)
    }

    fn instance(&mut self) -> Instance {
        self.keyword("instance");
        self.keyword("of");
        let class = self.name();
        let mut alias = None;
        if !self.takes('{') {
            self.keyword("as");
            self.mark('$');
            alias = Some(self.name());
            self.mark('{');
        }
        let mut properties = Vec::new();
        while !self.takes('}') {
            let name = self.name();
            self.mark('=');
            properties.push((name, self.value()));
            self.mark(';');
        }
        self.mark(';');
        Instance { class, alias, properties }
    }
}

fn put_scalar(out: &mut String, scalar: &Scalar) {
    match scalar {
        Scalar::Text(text) => {
            out.push('"');
            for c in text.chars() {
                match c {
                    '\u{8}' => out.push_str("\\b"),
                    '\t' => out.push_str("\\t"),
                    '\n' => out.push_str("\\n"),
                    '\u{c}' => out.push_str("\\f"),
                    '\r' => out.push_str("\\r"),
                    '"' => out.push_str("\\\""),
                    '\\' => out.push_str("\\\\"),
                    '\0'..='\u{1f}' => out.push_str(&format!("\\x{:04X}", c as u32)),
                    _ => out.push(c),
                }
            }
            out.push('"');
        }
        Scalar::Integer(integer) => out.push_str(&integer.to_string()),
        Scalar::Bool(bool) => out.push_str(if *bool { "TRUE" } else { "FALSE" }),
        Scalar::Null => out.push_str("NULL"),
        Scalar::Alias(name) => {
            out.push('$');
            out.push_str(name);
        }
    }
}

fn put_instance(out: &mut String, instance: &Instance) {
    out.push_str("instance of ");
    out.push_str(&instance.class);
    if let Some(alias) = &instance.alias {
        out.push_str(" as $");
        out.push_str(alias);
    }
    out.push_str("\n{\n");
    for (name, value) in &instance.properties {
        out.push(' ');
        out.push_str(name);
        out.push_str(" = ");
        match value {
            Value::One(scalar) => put_scalar(out, scalar),
            Value::Many(elements) => {
                out.push('{');
                for (place, element) in elements.iter().enumerate() {
                    out.push_str(if place == 0 { "" } else { ", " });
                    put_scalar(out, element);
                }
                out.push('}');
            }
        }
        out.push_str(";\n");
    }
    out.push_str("};\n");
}

fn main() {
    let mut text = String::new();
    std::io::stdin().read_to_string(&mut text).expect("the document");
    let mut reader = Reader { left: &text };
    let mut instances = Vec::new();
    reader.gap();
    while !reader.left.is_empty() {
        instances.push(reader.instance());
        reader.gap();
    }
    let mut out = String::new();
    for instance in &instances {
        put_instance(&mut out, instance);
    }
    std::io::stdout().write_all(out.as_bytes()).expect("the output");
}

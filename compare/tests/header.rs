//! hosts/rust/src/raw.rs is the header in Rust: the same records and functions, in the same order. Its numbers and
//! limits are the header's.
use std::fs;

/// A file of the repository, without comments, directives and attributes, with single blanks.
fn text(name: &str) -> String {
    let path = format!("{}/../{name}", env!("CARGO_MANIFEST_DIR"));
    let mut whole = fs::read_to_string(path).expect("the repository has the file");
    while let Some(start) = whole.find("/*") {
        let end = start + whole[start..].find("*/").expect("a comment ends") + 2;
        whole.replace_range(start..end, "");
    }
    let lines = whole
        .lines()
        .filter(|l| !l.trim_start().starts_with('#') && !l.trim_start().starts_with("//"));
    lines
        .flat_map(str::split_whitespace)
        .collect::<Vec<_>>()
        .join(" ")
}

/// What raw.rs calls a type of the header.
fn type_of(c: &str) -> String {
    if let Some(to) = c.strip_suffix('*') {
        return match to.trim().strip_prefix("const ") {
            Some(read) => format!("*const {}", type_of(read)),
            None if to.trim() == "pl_session" => "&mut Session".into(),
            None => format!("*mut {}", type_of(to.trim())),
        };
    }
    let name = match c {
        "size_t" => "usize",
        "uint8_t" => "u8",
        "uint16_t" => "u16",
        "uint32_t" => "u32",
        "int32_t" => "i32",
        "float" => "f32",
        "pl_config" => "Config",
        "pl_pos" => "Pos",
        "pl_session" => "Session",
        "pl_reply" => "Reply",
        "pl_answer" => "Answer",
        "pl_batch_answer" => "BatchAnswer",
        "pl_start" => "Start",
        other => panic!("raw.rs has no type for {other}"),
    };
    name.into()
}

/// A declaration of C, `type name`, as a name and its type in Rust.
fn declared(c: &str) -> (String, String) {
    let start = c.rfind([' ', '*']).expect("a type and a name") + 1;
    (c[start..].into(), type_of(c[..start].trim()))
}

fn list<'a>(parts: impl Iterator<Item = &'a str>) -> String {
    let all = parts.map(str::trim).filter(|p| !p.is_empty()).map(declared);
    all.map(|(name, kind)| format!("{name}: {kind}"))
        .collect::<Vec<_>>()
        .join(", ")
}

#[test]
fn the_records() {
    let (header, raw) = (text("include/perillahinge.h"), text("hosts/rust/src/raw.rs"));
    let c = header.split("typedef struct ").skip(1).map(|rest| {
        let (name, rest) = rest.split_once(" { ").expect("a record has fields");
        let fields = rest.split('}').next().expect("a record ends");
        format!("{} {{ {}, }}", type_of(name), list(fields.split(';')))
    });
    let rust = raw.split("pub struct ").skip(1).map(|rest| {
        let record = rest.split_inclusive('}').next().expect("a record ends");
        record.replace("pub ", "")
    });
    assert_eq!(c.collect::<Vec<_>>(), rust.collect::<Vec<_>>());
}

#[test]
fn the_functions() {
    let (header, raw) = (text("include/perillahinge.h"), text("hosts/rust/src/raw.rs"));
    let functions = header
        .split(';')
        .filter(|s| s.contains('(') && !s.contains("typedef"));
    let c = functions.map(|s| {
        let (head, rest) = s.split_once('(').expect("a function has parameters");
        let (name, answer) = declared(head.trim());
        let arguments = list(rest.trim_end_matches(')').split(','));
        format!("{name}({arguments}) -> {answer}")
    });
    let rust = raw.split("pub fn ").skip(1).map(|rest| {
        let function = rest.split(';').next().expect("a declaration ends");
        function.replace("( ", "(").replace(", )", ")")
    });
    let c: Vec<_> = c.collect();
    assert!(!c.is_empty(), "the header has functions");
    assert_eq!(c, rust.collect::<Vec<_>>());
}

#[test]
fn the_numbers_and_limits() {
    let (header, raw) = (text("include/perillahinge.h"), text("hosts/rust/src/raw.rs"));
    let listed = header.replace(',', " ,");
    let all: Vec<&str> = raw.split("pub const ").skip(1).collect();
    assert!(!all.is_empty(), "raw.rs has numbers and limits");
    for rest in all {
        let (name, rest) = rest.split_once(": ").expect("a number has a type");
        let value = rest
            .split(['=', ';'])
            .nth(1)
            .expect("a number has a value")
            .trim();
        let same = format!(" {name} = {value} ");
        assert!(listed.contains(&same), "the header has no{same}");
    }
}

//! The declarations in src/archive.rs are the header's: the same names, parameters and answers.

use std::collections::BTreeMap;
use std::path::PathBuf;

/// Of each function, the types of its parameters and of its answer, in Rust's words.
type Declared = BTreeMap<String, (Vec<String>, String)>;

fn rust_type(c: &str) -> &'static str {
    match c {
        "uint64_t *" => "*mut u64",
        "const uint64_t *" => "*const u64",
        "const uint32_t *" => "*const u32",
        "const uint16_t *" => "*const u16",
        "const uint8_t *" => "*const u8",
        "uint8_t *" => "*mut u8",
        "uint64_t" => "u64",
        "uint32_t" => "u32",
        "uint8_t" => "u8",
        "size_t" => "usize",
        "bool" => "bool",
        other => panic!("a type of the header that is not known: {other}"),
    }
}

/// A declaration up to its semicolon: `TYPE NAME(TYPE NAME, ..)`.
fn c_declaration(text: &str) -> Option<(String, (Vec<String>, String))> {
    let (head, parameters) = text.strip_suffix(')')?.split_once('(')?;
    let (answer, name) = head.rsplit_once(' ')?;
    let parameters = parameters.split(", ").filter(|parameter| *parameter != "void").map(|parameter| {
        let name = parameter.rfind([' ', '*']).expect("a type and a name") + 1;
        rust_type(parameter[..name].trim_end()).to_string()
    });
    Some((name.to_string(), (parameters.collect(), rust_type(answer).to_string())))
}

fn of_header(text: &str) -> Declared {
    let mut plain = String::new();
    for (i, part) in text.split("/*").enumerate() {
        plain.push_str(if i == 0 { part } else { part.split_once("*/").map_or("", |(_, rest)| rest) });
    }
    let plain = plain.lines().filter(|line| !line.starts_with('#')).collect::<Vec<_>>().join(" ");
    let plain = plain.split_whitespace().collect::<Vec<_>>().join(" ");
    let declarations = plain.split(['}', '{', ';']).map(str::trim);
    declarations.filter(|text| text.starts_with("uint32_t njn_") || text.starts_with("size_t njn_")).filter_map(c_declaration).collect()
}

fn of_archive(text: &str) -> Declared {
    let block = text.split_once("unsafe extern \"C\" {").expect("the block").1;
    let block = block.split_once("\n}").expect("its end").0;
    let plain = block.split_whitespace().collect::<Vec<_>>().join(" ");
    let mut declared = Declared::new();
    for text in plain.split(';').map(str::trim).filter(|text| !text.is_empty()) {
        let text = text.trim_start_matches("safe ").strip_prefix("fn ").expect("a function");
        let (name, rest) = text.split_once('(').expect("parameters");
        let (parameters, answer) = rest.split_once(") -> ").expect("an answer");
        let parameters = parameters.split(',').map(str::trim).filter(|parameter| !parameter.is_empty()).map(|parameter| {
            match parameter.split_once(": ").expect("a name and a type").1 {
                "Lent" => "*mut u64".to_string(),
                "Slice" => "*const u64".to_string(),
                other => other.to_string(),
            }
        });
        declared.insert(name.to_string(), (parameters.collect(), answer.to_string()));
    }
    declared
}

#[test]
fn the_declarations_are_the_headers() {
    let here = PathBuf::from(env!("CARGO_MANIFEST_DIR"));
    let include = std::env::var_os("NJUNNEMAR_INCLUDE").map_or_else(|| here.join("../../include"), PathBuf::from);
    let header = of_header(&std::fs::read_to_string(include.join("njunnemar.h")).expect("the header"));
    let archive = of_archive(&std::fs::read_to_string(here.join("src/archive.rs")).expect("the module"));
    assert!(archive.len() > 40);
    for (name, declared) in archive {
        assert_eq!(header.get(&name), Some(&declared), "{name}");
    }
}

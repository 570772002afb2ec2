//! The crate against include/tahvenno.h: every constant by its name and value, the sizes, and the parameters of every call.

use std::collections::BTreeMap;
use std::path::PathBuf;
use std::process::Command;
use std::{env, fs};
use tahvenno::{event_words, kept_words, layout, queue_bytes, table_words, Cache, Region, RegionSize};

const HEADER: &str = include_str!("../../../include/tahvenno.h");
const UNIT: &str = include_str!("../src/unit.rs");

/// The header without its comments.
fn code() -> String {
    let mut parts = HEADER.split("/*");
    let first = parts.next().expect("some text").to_string();
    parts.fold(first, |code, part| code + part.split_once("*/").expect("a comment ends").1)
}

fn ident(text: &str) -> &str {
    let end = text.find(|c: char| !c.is_ascii_alphanumeric() && c != '_').unwrap_or(text.len());
    &text[..end]
}

/// The names of macros without parameters that stand for something, and of enumerators. The version is the header's alone.
fn constants() -> Vec<String> {
    let code = code();
    let macros = code.lines().filter_map(|line| line.strip_prefix("#define ")).filter_map(|rest| {
        let (name, value) = rest.split_at(ident(rest).len());
        let number = value.starts_with(' ') && !value.trim().is_empty() && !name.starts_with("TAHVENNO_VERSION");
        number.then(|| name.to_string())
    });
    let enums = code.split("enum {").skip(1).filter_map(|rest| rest.split_once('}')).flat_map(|(body, _)| {
        body.split(',').map(|entry| ident(entry.trim()).to_string()).filter(|name| !name.is_empty()).collect::<Vec<_>>()
    });
    macros.chain(enums).collect()
}

/// A folder of this test's own, gone with it.
struct Folder(PathBuf);

impl Drop for Folder {
    fn drop(&mut self) {
        let _ = fs::remove_dir_all(&self.0);
    }
}

/// What a C compiler makes of expressions over the header.
fn values(expressions: &[String]) -> Vec<u64> {
    let folder = Folder(env::temp_dir().join(format!("tahvenno-header-{}", std::process::id())));
    fs::create_dir_all(&folder.0).expect("a folder");
    let print = |text: &String| format!("    printf(\"%llu\\n\", (unsigned long long)({text}));\n");
    let body: String = expressions.iter().map(print).collect();
    let source = format!("#include <stdio.h>\n#include \"tahvenno.h\"\nint main(void) {{\n{body}    return 0;\n}}\n");
    fs::write(folder.0.join("tahvenno.h"), HEADER).expect("the header");
    fs::write(folder.0.join("print.c"), source).expect("the program");
    let made = Command::new("cc").current_dir(&folder.0).args(["print.c", "-o", "print"]).status().expect("a compiler");
    assert!(made.success(), "the program does not compile");
    let told = Command::new(folder.0.join("print")).output().expect("the program");
    let text = String::from_utf8(told.stdout).expect("text");
    text.lines().map(|line| line.parse().expect("a number")).collect()
}

#[test]
fn constants_and_sizes_are_the_headers() {
    let names = constants();
    assert!(names.len() > 100, "{names:?}");
    let mut sized = Vec::new();
    for n in 0..=12u8 {
        let rows = usize::from(n) * 83 + 1;
        sized.push((format!("TAHVENNO_WORDS({rows})"), kept_words(rows) as u64));
        sized.push((format!("TAHVENNO_TABLE_WORDS({rows})"), table_words(rows) as u64));
        sized.push((format!("TAHVENNO_QUEUE_BYTES({n})"), queue_bytes(n) as u64));
        sized.push((format!("TAHVENNO_EVENT_WORDS({n})"), event_words(n) as u64));
        sized.push((format!("TAHVENNO_ROW({})", n % 4), layout::VALID | layout::put(layout::KIND, n.into())));
    }
    for (outer, inner) in Cache::ALL.iter().flat_map(|outer| Cache::ALL.iter().map(move |inner| (*outer, *inner))) {
        let (outer, inner) = (u64::from(outer), u64::from(inner));
        let memattr = layout::normal(outer, inner);
        sized.push((format!("TAHVENNO_NORMAL({outer}, {inner})"), memattr));
        sized.push((format!("TAHVENNO_OUTER({memattr})"), layout::outer(memattr)));
        sized.push((format!("TAHVENNO_INNER({memattr})"), layout::inner(memattr)));
    }
    for &size in RegionSize::ALL {
        let words = Region { size, base: 0, last_level: false }.words().expect("a region");
        sized.push((format!("TAHVENNO_REGION({})", u64::from(size)), words[0]));
    }
    let asked: Vec<String> = names.iter().chain(sized.iter().map(|(text, _)| text)).cloned().collect();
    let told = values(&asked);
    assert_eq!(told.len(), asked.len());
    let header: BTreeMap<String, u64> = names.iter().cloned().zip(told.iter().copied()).collect();
    // a name that begins with a digit behind TAHVENNO_ keeps the underscore
    let full = |name: &str| format!("TAHVENNO_{}", name.trim_start_matches('_'));
    let own: BTreeMap<String, u64> = layout::ALL.iter().map(|&(name, value)| (full(name), value)).collect();
    let differs =
        |(name, value): &(&String, &u64)| own.get(*name) != header.get(*name) || own.get(*name) != Some(value);
    let odd: Vec<_> = own.iter().chain(&header).filter(differs).collect();
    assert!(odd.is_empty(), "in the crate and the header: {odd:x?}");
    for ((text, own), told) in sized.iter().zip(&told[names.len()..]) {
        assert_eq!(own, told, "{text}");
    }
}

/// A parameter of the header, as Rust has it.
fn parameter(text: &str) -> String {
    let pointer = match (text.contains(['*', '[']), text.starts_with("const ")) {
        (false, _) => "",
        (true, true) => "*const ",
        (true, false) => "*mut ",
    };
    let (before, name) = text.split('[').next().expect("some text").rsplit_once([' ', '*']).expect("a type and a name");
    let types = [("uint64_t", "u64"), ("uint32_t", "u32"), ("uint8_t", "u8"), ("size_t", "usize")];
    let (_, own) = types.iter().find(|(c, _)| before.contains(c)).expect("a known type");
    format!("{name}: {pointer}{own}")
}

/// One space for any white space.
fn flat(text: &str) -> String {
    text.split_whitespace().collect::<Vec<_>>().join(" ")
}

#[test]
fn calls_have_the_headers_parameters() {
    let (code, unit) = (flat(&code()), flat(UNIT));
    let declared = code.split("uint64_t tahvenno_").skip(1).filter_map(|text| text.split_once(");"));
    let calls: Vec<&str> = declared.map(|(call, _)| call).filter(|call| !call.contains('{')).collect();
    assert!(calls.len() >= 15, "{calls:?}");
    for call in &calls {
        let (name, rest) = call.split_once('(').expect("parameters");
        let parameters: Vec<String> = rest.split(", ").map(parameter).collect();
        let due = format!("fn tahvenno_{name}({}) -> u64;", parameters.join(", "));
        assert!(unit.contains(&due), "{due}");
    }
    assert_eq!(unit.matches("fn tahvenno_").count(), calls.len(), "a call that the header does not have");
}

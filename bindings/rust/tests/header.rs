//! Holds what this crate declares against bindings/c/capgauze.h, which is the one declaration: each struct with its words, each function
//! with its parameters, each constant, each name. One more on either side, or another order, fails.
use capgauze::*;
use std::collections::BTreeMap;

const HEADER: &str = include_str!("../../c/capgauze.h");
const FFI: &str = include_str!("../src/ffi.rs");
const WIRE: &str = include_str!("../../../crates/wire/src/lib.rt");

/// The text between a start and the next end, and what follows it.
fn between<'a>(text: &'a str, start: &str, end: &str) -> Option<(&'a str, &'a str)> {
    text.split_once(start)?.1.split_once(end)
}

/// All texts between a start and the next end.
fn all_between<'a>(mut text: &'a str, start: &str, end: &str) -> Vec<&'a str> {
    let mut found = Vec::new();
    while let Some((inside, behind)) = between(text, start, end) {
        found.push(inside);
        text = behind;
    }
    found
}

fn without(text: &str, start: &str, end: &str) -> String {
    let mut left = text.to_string();
    while let Some((inside, _)) = between(&left, start, end) {
        left = left.replacen(&format!("{start}{inside}{end}"), " ", 1);
    }
    left
}

fn one_line(text: &str) -> String {
    text.split_whitespace().collect::<Vec<_>>().join(" ")
}

/// The header's statements: no comments, no lines of the preprocessor, nothing for C++ alone, no body of a function.
fn statements() -> Vec<String> {
    let plain = without(&without(HEADER, "/*", "*/"), "#ifdef __cplusplus", "#endif");
    let plain: String =
        plain.lines().filter(|line| !line.starts_with('#')).flat_map(|line| [line, "\n"]).collect();
    let plain = without(&plain, "static inline", "\n}\n");
    let mut statements = vec![String::new()];
    let mut depth = 0;
    for c in plain.chars() {
        depth += i32::from(c == '{') - i32::from(c == '}');
        if c == ';' && depth == 0 {
            statements.push(String::new());
        } else {
            statements.last_mut().unwrap().push(c);
        }
    }
    statements.iter().map(|statement| one_line(statement)).filter(|s| !s.is_empty()).collect()
}

/// `type` is a word of Rust's.
fn renamed(name: &str) -> &str {
    if name == "type" {
        "kind"
    } else {
        name
    }
}

/// A type of C's as Rust has it.
fn rust_type(c: &str) -> String {
    let word = |word: &str| match word {
        "uint8_t" => "u8".to_string(),
        "uint32_t" => "u32".to_string(),
        "uint64_t" => "u64".to_string(),
        "int64_t" => "i64".to_string(),
        "size_t" => "usize".to_string(),
        other => {
            let name = other.strip_prefix("capgauze_").unwrap_or_else(|| panic!("a type: {other}"));
            name[..1].to_uppercase() + &name[1..]
        }
    };
    match c.trim().strip_suffix('*').map(str::trim) {
        None => word(c.trim()),
        Some(to) => match to.strip_prefix("const ") {
            Some(to) => format!("*const {}", word(to)),
            None => format!("*mut {}", word(to)),
        },
    }
}

/// A struct in one line: `Name { word, word }`. All its words are u64.
fn header_struct(statement: &str) -> Option<String> {
    let (words, name) = between(statement, "typedef struct { uint64_t ", "; } ")?;
    let words: Vec<&str> = words.split(", ").map(renamed).collect();
    Some(format!("{} {{ {} }}", rust_type(name), words.join(", ")))
}

/// A function in one line: `name(word: type, ..) -> type`.
fn header_function(statement: &str) -> Option<String> {
    let (before, parameters) = statement.strip_suffix(')')?.split_once('(')?;
    let (answer, name) = before.rsplit_once(' ')?;
    let parameter = |text: &str| {
        let at = text.rfind([' ', '*']).expect("a type and a name") + 1;
        format!("{}: {}", renamed(&text[at..]), rust_type(&text[..at]))
    };
    let parameters: Vec<String> = parameters.split(", ").map(parameter).collect();
    Some(format!("{name}({}) -> {}", parameters.join(", "), rust_type(answer)))
}

#[test]
fn structs_and_functions() {
    let (mut structs, mut functions) = (Vec::new(), Vec::new());
    for statement in statements() {
        if let Some(found) = header_struct(&statement) {
            structs.push(found);
        } else if let Some(found) = header_function(&statement) {
            functions.push(found);
        } else {
            assert!(statement.starts_with("enum {"), "no struct, function or enum: {statement}");
        }
    }
    assert!(structs.len() > 10 && functions.len() > 30, "the header was not understood");

    let (inside, _) = between(FFI, "\nanswers! {\n", "\n}\n").unwrap();
    assert_eq!(structs, inside.lines().map(one_line).collect::<Vec<_>>());
    assert_eq!(FFI.matches("pub struct").count(), 1, "a struct that is not one of `answers!`");

    let declared = |text: &&str| one_line(text).replace("( ", "(").replace(", )", ")");
    assert_eq!(
        functions,
        all_between(FFI, "pub fn ", ";").iter().map(declared).collect::<Vec<_>>()
    );
    assert_eq!(FFI.matches("extern \"C\" {").count(), 1);
}

/// The names and values of the header's enums.
fn numbers() -> Vec<(String, u64)> {
    let enums = statements().into_iter().filter(|statement| statement.starts_with("enum {"));
    let lines = enums.flat_map(|text| {
        let (inside, _) = between(&text, "{ ", " }").unwrap();
        inside.split(", ").map(str::to_string).collect::<Vec<_>>()
    });
    lines
        .map(|line| {
            let (name, value) = line.split_once(" = ").unwrap();
            (name.strip_prefix("CAPGAUZE_").unwrap().to_string(), value.parse().unwrap())
        })
        .collect()
}

/// BAD_CAP as BadCap.
fn camel(name: &str) -> String {
    name.split('_').map(|word| word[..1].to_string() + &word[1..].to_lowercase()).collect()
}

#[test]
fn refusals() {
    let (body, _) = between(HEADER, "capgauze_refusal_name(uint64_t number) {", "\n}\n").unwrap();
    let named: Vec<(String, String)> = all_between(body, "case CAPGAUZE_", "\";")
        .iter()
        .map(|case| case.split_once(": return \"").map(|(a, b)| (a.into(), b.into())).unwrap())
        .collect();
    let all: Vec<(String, u64)> =
        numbers().into_iter().take_while(|(name, _)| name != "VARINT").collect();
    assert_eq!(all[0], ("ACCEPTED".to_string(), 0));
    assert_eq!(named, all.iter().map(|(name, _)| (name.clone(), camel(name))).collect::<Vec<_>>());

    // Rust's, and those of the proved list.
    let (proved, _) = between(WIRE, "pub fn number_of", "\n}\n").unwrap();
    let proved: BTreeMap<u64, &str> = all_between(proved, "Refusal::", ",")
        .iter()
        .map(|arm| arm.split_once(" => ").map(|(name, n)| (n.parse().unwrap(), name)).unwrap())
        .collect();
    for (i, (name, number)) in all.iter().enumerate().skip(1) {
        assert_eq!(*number, i as u64);
        let refusal = Refusal::try_from(*number).unwrap();
        assert_eq!((format!("{refusal:?}"), refusal.number()), (camel(name), *number));
        assert_eq!(proved[number], camel(name));
    }
    assert_eq!(proved.len(), all.len() - 1);
    for number in [0, all.len() as u64, 1 << 32, u64::MAX] {
        assert_eq!(Refusal::try_from(number), Err(UnknownRefusal(number)));
    }
}

#[test]
fn other_numbers() {
    let rest = numbers().into_iter().skip_while(|(name, _)| name != "VARINT");
    let types = [
        WireType::Varint,
        WireType::LengthDelimited,
        WireType::ThirtyTwoBit,
        WireType::SixtyFourBit,
    ];
    let grades = [Grade::NotCanonical, Grade::HasExtensions, Grade::Canonical];
    let mut ours: Vec<(String, u64)> = types.map(|t| (format!("{t:?}"), t as u64)).into();
    ours.push(("FromNone".into(), 0));
    ours.extend(
        [Supplier::Original, Supplier::Correction].map(|s| (format!("From{s:?}"), s as u64)),
    );
    ours.extend(grades.map(|grade| (format!("Grade{grade:?}"), grade as u64)));
    assert_eq!(rest.map(|(name, value)| (camel(&name), value)).collect::<Vec<_>>(), ours);
}

#[test]
fn constants() {
    let [major, minor, patch] = [
        env!("CARGO_PKG_VERSION_MAJOR"),
        env!("CARGO_PKG_VERSION_MINOR"),
        env!("CARGO_PKG_VERSION_PATCH"),
    ];
    let ours = [
        ("VERSION_MAJOR", major.to_string()),
        ("VERSION_MINOR", minor.to_string()),
        ("VERSION_PATCH", patch.to_string()),
        ("VERSION", format!("\"{}\"", env!("CARGO_PKG_VERSION"))),
        ("LIMIT", LIMIT.to_string()),
        ("RECORD_WORDS", RECORD_WORDS.to_string()),
        ("NO_KEY", "UINT64_MAX".to_string()),
        ("INDEX_WORDS", INDEX_WORDS.to_string()),
        ("LEVEL_WORDS", LEVEL_WORDS.to_string()),
        ("GRADED_WORDS", GRADED_WORDS.to_string()),
    ];
    let lines = HEADER.lines().filter_map(|line| line.strip_prefix("#define CAPGAUZE_"));
    let theirs: Vec<(&str, String)> =
        lines.filter_map(|line| line.split_once(' ')).map(|(a, b)| (a, b.to_string())).collect();
    assert_eq!(theirs, ours);
    assert_eq!(NO_KEY, u64::MAX);
}

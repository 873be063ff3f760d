//! include/eddyplume.h as a C compiler takes it: each of its functions has the
//! type that src/header.rs declares, and RULES 15.1 runs through it.

mod cc;

use std::fs;
use std::path::PathBuf;
use std::process::Command;

const RUST: &str = include_str!("../src/header.rs");
const HEADER: &str = include_str!("../../../include/eddyplume.h");

/// The functions of src/header.rs, and the types of their arguments in C.
fn functions() -> Vec<(&'static str, Vec<String>)> {
    let declarations = RUST.split("pub fn ").skip(1);
    declarations.map(|declaration| function(declaration).expect(declaration)).collect()
}

/// `NAME = C_NAME(ARGUMENT: TYPE, ..);`
fn function(declaration: &str) -> Option<(&str, Vec<String>)> {
    let (head, _) = declaration.split_once(");")?;
    let (names, arguments) = head.split_once('(')?;
    let (_, c_name) = names.split_once(" = ")?;
    let mut types = Vec::new();
    for argument in arguments.split(',') {
        let (_, of) = argument.trim().split_once(": ")?;
        types.extend(c_types(of)?);
    }
    Some((c_name, types))
}

/// What src/lent.rs makes of an argument of this type. `size_t` and `uint64_t` are one type
/// to a C compiler for x86-64, so that one in place of the other is not seen.
fn c_types(of: &str) -> Option<Vec<String>> {
    let (constant, referred) = match (of.strip_prefix("&mut "), of.strip_prefix('&')) {
        (Some(referred), _) => ("", referred),
        (None, Some(referred)) => ("const ", referred),
        (None, None) => return numbers(of),
    };
    let Some(row) = referred.strip_prefix('[').and_then(|row| row.strip_suffix(']')) else {
        return (referred == "Answer").then(|| vec![format!("{constant}uint64_t *")]);
    };
    let pointer = |cell| Some(format!("{constant}{} *", c_number(cell)?));
    Some(match row.split_once("; ") {
        Some((cell, _)) => vec![pointer(cell)?],
        None => vec![pointer(row)?, "size_t".to_string()],
    })
}

/// A number, or an `Option` of one.
fn numbers(of: &str) -> Option<Vec<String>> {
    let number = |of| c_number(of).map(str::to_string);
    match of.strip_prefix("Option<").and_then(|of| of.strip_suffix('>')) {
        Some(of) => Some(vec!["bool".to_string(), number(of)?]),
        None => Some(vec![number(of)?]),
    }
}

fn c_number(of: &str) -> Option<&'static str> {
    match of {
        "u8" => Some("uint8_t"),
        "u32" => Some("uint32_t"),
        "u64" => Some("uint64_t"),
        _ => None,
    }
}

/// A pointer to each function, of the type that src/header.rs declares.
fn pointers() -> String {
    functions()
        .into_iter()
        .map(|(name, types)| format!("void (*declared_{name})({}) = {name};\n", types.join(", ")))
        .collect()
}

/// Compiles tests/header.c with these pointers.
fn compiled(name: &str, pointers: &str) -> Result<PathBuf, String> {
    let folder = cc::folder(name);
    fs::write(folder.join("declared.h"), pointers).unwrap();
    cc::compiled("tests/header.c", &folder)
}

#[test]
fn every_function_of_the_header_is_declared() {
    let in_c = HEADER.lines().filter_map(|line| line.strip_prefix("void ")?.split('(').next());
    let in_rust = functions().into_iter().map(|(name, _)| name);
    assert_eq!(in_c.collect::<Vec<_>>(), in_rust.collect::<Vec<_>>());
}

#[test]
fn example_1_in_c() {
    let program = compiled("example_1", &pointers()).unwrap_or_else(|said| panic!("{said}"));
    let ran = Command::new(&program).output().unwrap();
    assert!(ran.status.success(), "{}", ran.status);
    let printed = "0 0 10\n08006000435302004354eeee\n\
                   The data set was read and the bytes to check were formed.\n";
    assert_eq!(String::from_utf8_lossy(&ran.stdout), printed);
}

#[test]
fn a_difference_of_types_does_not_compile() {
    for (index, (of, other)) in [
        ("bool", "uint8_t"),
        ("const uint8_t *", "uint8_t *"),
        ("uint32_t,", "uint64_t,"),
        ("size_t, ", ""),
        (", uint64_t *)", ", uint64_t)"),
        ("eddyplume_lookup;", "eddyplume_look;"),
    ]
    .into_iter()
    .enumerate()
    {
        let changed = pointers().replacen(of, other, 1);
        assert_ne!(changed, pointers(), "{of}");
        assert!(compiled(&format!("difference_{index}"), &changed).is_err(), "{of}");
    }
}

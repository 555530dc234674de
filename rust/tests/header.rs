//! The C header, beside the exports of the crates' sources and of the libraries, and used by a C program.

use std::collections::BTreeMap;
use std::fmt::Write;
use std::fs;
use std::path::Path;
use std::path::PathBuf;
use std::process::Command;

use julqetai::ComplexSort;
use julqetai::NameTarget;
use julqetai::Node;
use julqetai::Overload;
use julqetai::Place;
use julqetai::Problem;
use julqetai::Sort;
use julqetai::SortId;
use julqetai::Workspace;

/// Functions of one library: the types of their C parameters by name.
type Functions = BTreeMap<String, Vec<String>>;

/// The libraries that the header names.
const LIBRARIES: [&str; 5] = ["solve_records", "solve_entries", "unify_entries", "sort_entries", "sort_writer"];

fn root() -> PathBuf {
    Path::new(env!("CARGO_MANIFEST_DIR")).join("..")
}

fn library_folder() -> PathBuf {
    std::env::var_os("JULQETAI_LIB_DIR").map_or_else(|| root().join("target/staticlib"), PathBuf::from)
}

fn library(name: &str) -> PathBuf {
    library_folder().join(format!("lib{name}.a"))
}

fn read(path: &Path) -> String {
    fs::read_to_string(path).unwrap_or_else(|error| panic!("{}: {error}", path.display()))
}

/// The text between `open` and the bracket that closes it.
fn inside(text: &str) -> &str {
    text.split_once('(').and_then(|(_, rest)| rest.split_once(')')).expect("parameters stand in brackets").0
}

/// The functions of the header by library. A library is named in the comment before its functions.
fn of_header() -> BTreeMap<String, Functions> {
    let text = read(&Path::new(env!("CARGO_MANIFEST_DIR")).join("include/julqetai.h"));
    let mut libraries: BTreeMap<String, Functions> = BTreeMap::new();
    let (mut library, mut at) = (String::new(), 0);
    for line in text.lines() {
        if let Some(name) = line.strip_prefix("/* lib").and_then(|rest| rest.strip_suffix(".a")) {
            library = name.to_string();
        }
        if let Some(rest) = line.strip_prefix("uint64_t ") {
            let name = rest.split('(').next().expect("a function has a name").to_string();
            let parameters = inside(&text[at..]).split(',').map(|parameter| c_type(parameter.trim()));
            libraries.entry(library.clone()).or_default().insert(name, parameters.collect());
        }
        at += line.len() + 1;
    }
    libraries
}

/// The type of a C parameter, without its name.
fn c_type(parameter: &str) -> String {
    let name = parameter.rfind([' ', '*']).expect("a parameter has a type and a name") + 1;
    parameter[..name].trim().to_string()
}

/// The exports in the source of a crate, with the types that C passes: a slice as a pointer and a length.
fn of_source(path: &Path) -> Functions {
    let text = read(path);
    let exports = text.split("pub extern \"C\" fn ").skip(1);
    exports
        .map(|export| {
            let name = export.split('(').next().expect("a function has a name").to_string();
            let parameters = inside(export).split(',').map(str::trim).filter(|parameter| !parameter.is_empty());
            let types = parameters.flat_map(|parameter| c_types(parameter.split_once(": ").expect("it has a type").1));
            (name, types.collect())
        })
        .collect()
}

fn c_types(rattle: &str) -> Vec<String> {
    let pointer = match rattle {
        "usize" => return vec!["size_t".to_string()],
        "u16" => return vec!["uint16_t".to_string()],
        "&[u16]" => "const uint16_t *",
        "&mut [u16]" => "uint16_t *",
        "&mut [u8]" => "uint8_t *",
        "&[OverloadRecord]" => "const struct julqetai_overload *",
        other => panic!("the header has no type for {other}"),
    };
    vec![pointer.to_string(), "size_t".to_string()]
}

/// What `nm` says is defined for others.
fn of_library(path: &Path) -> Vec<String> {
    let output = Command::new("nm").args(["--defined-only", "--extern-only"]).arg(path).output().expect("nm runs");
    assert!(output.status.success(), "{}", String::from_utf8_lossy(&output.stderr));
    let text = String::from_utf8(output.stdout).expect("names are text");
    let mut names: Vec<String> =
        text.lines().filter_map(|line| line.split_once(" T ")).map(|(_, name)| name.to_string()).collect();
    names.sort();
    names
}

/// Every export of every crate is in the header under its library, with its parameters, and nothing else is. It stands in
/// the crate and, the same, in the crate `_c` of its archive.
#[test]
fn header_and_sources() {
    let header = of_header();
    let (mut sources, mut archives) = (BTreeMap::new(), BTreeMap::new());
    for folder in fs::read_dir(root().join("crates")).expect("the crates are there") {
        let folder = folder.expect("the crates can be read").path();
        let source = folder.join("src/lib.rt");
        let functions = if source.exists() { of_source(&source) } else { Functions::new() };
        if !functions.is_empty() {
            let name = folder.file_name().expect("a crate has a name").to_string_lossy().into_owned();
            match name.strip_suffix("_c") {
                Some(library) => archives.insert(library.to_string(), functions),
                None => sources.insert(name, functions),
            };
        }
    }
    assert_eq!(header, sources);
    assert_eq!(header, archives);
    let mut named: Vec<&str> = header.keys().map(String::as_str).collect();
    named.sort_by_key(|name| LIBRARIES.iter().position(|other| other == name));
    assert_eq!(named, LIBRARIES);
}

/// A library has the functions that the header says it has. Those that were not built are left out.
#[test]
fn header_and_libraries() {
    for (name, functions) in of_header() {
        let path = library(&name);
        match path.exists() {
            true => assert_eq!(of_library(&path), functions.into_keys().collect::<Vec<_>>(), "lib{name}.a"),
            false => println!("lib{name}.a was not built"),
        }
    }
    assert!(library("solve_records").exists());
}

/// The list of small.c by the safe types, and what the crate says of it, as small.c prints it.
fn expected() -> String {
    let mut problem = Problem::new();
    let set = problem.add_sort(Sort::Container { op: ComplexSort::Set, subsort: SortId::NAT });
    let ((_, v), (_, w)) = (problem.fresh_var(), problem.fresh_var());
    let finite = problem.add_node(Node::Generic { op: ComplexSort::FSet, subsort: v.into() });
    let (first, second, third) = (problem.add_expr(v), problem.add_expr(w), problem.add_expr(w));
    problem.add_name(first, NameTarget::Variable);
    problem.sub(finite, set);
    let builtin = Overload { target: NameTarget::Builtin, sort: Place::Sort(SortId::POS) };
    problem.disjunction(third, w, &[builtin, Overload::op(SortId::NAT)]);
    problem.sub(w, SortId::NAT);
    problem.disjunction(second, w, &[Overload::op(SortId::NAT)]);

    let mut workspace = Workspace::new();
    let typing = workspace.solve(&problem).expect("it has a typing");
    let mut text = format!("code 0, sorts {}, entries 0, typing", problem.sort_count() + typing.new_sorts().len());
    for (sort, name) in typing.sorts().zip(typing.names()) {
        let (kind, target) = match name {
            None => (0, 0),
            Some(NameTarget::Variable) => (1, 0),
            Some(NameTarget::Op { sort }) => (2, sort.0),
            Some(NameTarget::Builtin) => (3, 0),
        };
        write!(text, " {} {kind} {target}", sort.0).expect("a string can be written to");
    }
    text.push_str(", measure");
    typing.measure().iter().for_each(|component| write!(text, " {component}").expect("a string can be written to"));
    text.push_str(", choices");
    typing.choices().for_each(|choice| {
        write!(text, " {} {}", choice.expr.0, choice.position).expect("a string can be written to");
    });
    text
}

/// A C program that includes the header, linked with the libraries that were built.
#[test]
fn c_program() {
    let folder = PathBuf::from(env!("CARGO_TARGET_TMPDIR"));
    let (program, source) = (folder.join("small"), Path::new(env!("CARGO_MANIFEST_DIR")).join("tests/header/small.c"));
    let mut cc = Command::new("cc");
    cc.args(["-std=c11", "-Wall", "-Wextra", "-Werror", "-pedantic", "-I"]);
    cc.arg(Path::new(env!("CARGO_MANIFEST_DIR")).join("include")).arg(&source);
    let built = LIBRARIES.map(|name| library(name).exists());
    for (name, _) in LIBRARIES.iter().zip(built).filter(|(_, built)| *built) {
        cc.arg(format!("-D{}", name.to_uppercase())).arg(library(name));
    }
    let output = cc.arg("-o").arg(&program).output().expect("cc runs");
    assert!(output.status.success(), "{}", String::from_utf8_lossy(&output.stderr));

    let output = Command::new(&program).output().expect("the program runs");
    assert!(output.status.success());
    let answered = expected();
    assert_eq!(answered, "code 0, sorts 7, entries 0, typing 3 1 0 3 2 3 3 2 3, measure 1 0, choices 1 0 2 1");
    let lines: [&[&str]; 5] = [
        &[&format!("sort_solve_records: {answered}")],
        &[&format!("sort_solve: {answered}")],
        &["sort_unify: 256, binds 6 65535"],
        &[
            "sort_partial_cmp: 512",
            "sort_is_materializable: 256",
            "sort_widening_distance: 30100",
            "sort_join: 700040100",
            "sort_meet: 700020100",
        ],
        &["sort_write: Set(Nat)"],
    ];
    let lines = lines.into_iter().zip(built).filter(|(_, built)| *built).flat_map(|(lines, _)| lines);
    let expected: String = lines.map(|line| format!("{line}\n")).collect();
    assert_eq!(String::from_utf8_lossy(&output.stdout), expected);
}

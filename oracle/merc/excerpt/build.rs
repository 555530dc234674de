//! Cuts the excerpt from the unchanged texts in `merc/text`, by deleting lines only (`cuts.txt`),
//! and for the counting build adds the lines of `insertions.txt`. Every cut and every insertion
//! names the text of the lines it refers to; the build stops where they are not found.

use std::collections::BTreeMap;
use std::env;
use std::fs;
use std::path::Path;

const FILES: [&str; 3] = ["inference.rs", "unification.rs", "resolved_sort.rs"];

/// The lines of one source text, each with what the build does to it.
struct Source {
    lines: Vec<String>,
    deleted: Vec<bool>,
    /// New lines by the number of the line that they stand before.
    inserted: BTreeMap<usize, Vec<String>>,
}

impl Source {
    fn read(path: &Path) -> Source {
        let lines: Vec<String> = read(path).lines().map(str::to_string).collect();
        let deleted = vec![false; lines.len()];
        Source { lines, deleted, inserted: BTreeMap::new() }
    }

    /// Stops the build unless line `number` (from 1) is `text`.
    fn expect(&self, file: &str, number: usize, text: &str) {
        let found = self.lines.get(number.wrapping_sub(1)).map(String::as_str);
        assert_eq!(found, Some(text), "{file} line {number} is not the expected line");
    }

    fn delete(&mut self, from: usize, to: usize) {
        assert!(from <= to, "a cut from {from} to {to}");
        for line in from..=to {
            assert!(!self.deleted[line - 1], "line {line} is cut twice");
            self.deleted[line - 1] = true;
        }
    }

    fn text(&self) -> String {
        let mut text = String::new();
        for (index, line) in self.lines.iter().enumerate() {
            for new in self.inserted.get(&(index + 1)).into_iter().flatten() {
                text += &format!("{new} // counting\n");
            }
            if !self.deleted[index] {
                text += &format!("{line}\n");
            }
        }
        text
    }
}

fn read(path: &Path) -> String {
    println!("cargo:rerun-if-changed={}", path.display());
    fs::read_to_string(path).unwrap_or_else(|error| panic!("{}: {error}", path.display()))
}

/// An entry of a table: a head line without a mark, then lines with a mark and a space.
struct Block<'a> {
    head: Vec<&'a str>,
    lines: Vec<(char, &'a str)>,
}

fn blocks(table: &str) -> Vec<Block<'_>> {
    let mut blocks: Vec<Block> = Vec::new();
    for line in table.lines().filter(|line| !line.is_empty() && !line.starts_with('#')) {
        if line.starts_with(['|', '+']) {
            let mark = line.chars().next().expect("the line has a mark");
            blocks.last_mut().expect("a head line comes first").lines.push((mark, &line[2..]));
        } else {
            blocks.push(Block { head: line.split(' ').collect(), lines: Vec::new() });
        }
    }
    blocks
}

fn number(word: &str) -> usize {
    word.parse().unwrap_or_else(|_| panic!("`{word}` is not a line number"))
}

fn cut(sources: &mut BTreeMap<&str, Source>, table: &str) {
    for Block { head, lines } in blocks(table) {
        let [file, from, to] = head[..] else { panic!("a cut has FILE FROM TO: {head:?}") };
        let [('|', first), ('|', last)] = lines[..] else { panic!("a cut has two texts: {head:?}") };
        let source = sources.get_mut(file).expect("a known file");
        source.expect(file, number(from), first);
        source.expect(file, number(to), last);
        source.delete(number(from), number(to));
    }
}

fn insert(sources: &mut BTreeMap<&str, Source>, table: &str) {
    for Block { head, lines } in blocks(table) {
        let [file, line, side] = head[..] else { panic!("an insertion has FILE LINE SIDE: {head:?}") };
        let [('|', anchor), ('+', new)] = lines[..] else { panic!("an insertion has two texts: {head:?}") };
        let source = sources.get_mut(file).expect("a known file");
        source.expect(file, number(line), anchor);
        assert!(!source.deleted[number(line) - 1], "{file} line {line} is cut");
        let before = match side {
            "before" => number(line),
            "after" => number(line) + 1,
            _ => panic!("`{side}` is neither before nor after"),
        };
        source.inserted.entry(before).or_default().push(new.to_string());
    }
}

fn main() {
    let merc = Path::new(env!("CARGO_MANIFEST_DIR")).join("../..");
    let mut sources: BTreeMap<&str, Source> =
        FILES.iter().map(|&file| (file, Source::read(&merc.join("text").join(file)))).collect();
    cut(&mut sources, &read(&merc.join("excerpt/cuts.txt")));
    if env::var_os("CARGO_FEATURE_COUNTING").is_some() {
        insert(&mut sources, &read(&merc.join("excerpt/insertions.txt")));
    }
    let out = env::var_os("OUT_DIR").expect("cargo sets OUT_DIR");
    for (file, source) in &sources {
        fs::write(Path::new(&out).join(file), source.text()).expect("OUT_DIR can be written");
    }
}

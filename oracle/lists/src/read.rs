//! Reads the text format, line by line.

use std::fmt;

use crate::answer::Answer;
use crate::given::Counted;
use crate::given::Given;
use crate::given::Lent;
use crate::memory::*;
use crate::question::Question;

/// The longest line, its LF not counted; comments and answers may be longer.
pub const LONGEST_LINE: usize = 200;

/// The words for the fixed six sorts, by number.
pub const FIXED_SORTS: [&str; 6] = ["unit", "Bool", "Pos", "Nat", "Int", "Real"];

/// The words for the containers, by kind from [kind::LIST] on.
pub const CONTAINERS: [&str; 5] = ["List", "Set", "FSet", "Bag", "FBag"];

/// What is wrong with a line.
#[derive(Debug)]
pub struct Bad {
    pub line: usize,
    pub message: String,
}

impl fmt::Display for Bad {
    fn fmt(&self, f: &mut fmt::Formatter<'_>) -> fmt::Result {
        write!(f, "line {}: {}", self.line, self.message)
    }
}

/// What a line asks of the reader's caller.
#[derive(Debug)]
pub enum Item {
    /// A blank line, a comment, or a line of the list.
    Nothing,
    /// A question about the list as it stands.
    Question(Question),
    /// The recorded answer of the question before it.
    Answer(Answer),
}

/// The constraint line that `overload` and `sources` lines belong to.
#[derive(Clone, Copy, PartialEq)]
enum Last {
    Disjunction,
    Join,
    Other,
}

/// Where in a list the reader stands.
#[derive(Clone, Copy, PartialEq)]
enum Stage {
    /// Lines of the list may follow.
    Giving,
    /// A question was asked: its answer, more questions or the next list may follow.
    Asked,
    /// The same, but the last question has its answer.
    Answered,
}

pub struct Reader {
    line: usize,
    list: Option<Given>,
    stage: Stage,
    last: Last,
    /// Whether counts of rows stop at 65,535. Else a line that goes above it is bad.
    counts_stop: bool,
}

impl Default for Reader {
    fn default() -> Self {
        Reader::new()
    }
}

impl Reader {
    pub fn new() -> Reader {
        Reader { line: 0, list: None, stage: Stage::Giving, last: Last::Other, counts_stop: false }
    }

    /// A reader for which rows past 65,535 are no error of the text: their count stays there.
    pub fn with_counts_that_stop() -> Reader {
        Reader { counts_stop: true, ..Reader::new() }
    }

    /// The number of the line read last, from 1.
    pub fn line_number(&self) -> usize {
        self.line
    }

    /// The list that the lines so far give.
    pub fn list(&self) -> Option<&Given> {
        self.list.as_ref()
    }

    /// Reads one line, without its LF.
    pub fn read(&mut self, line: &[u8]) -> Result<Item, Bad> {
        self.line += 1;
        self.dispatch(line).map_err(|message| Bad { line: self.line, message })
    }

    fn dispatch(&mut self, line: &[u8]) -> Result<Item, String> {
        let first = line.iter().copied().find(|&byte| byte != b' ');
        if matches!(first, None | Some(b'#')) {
            return Ok(Item::Nothing);
        }
        if let Some(byte) = line.iter().find(|byte| !(b' '..=b'~').contains(byte)) {
            return Err(format!("expected printable ASCII, found the byte 0x{byte:02x}"));
        }
        if line.len() > LONGEST_LINE && first != Some(b'=') {
            return Err(format!("expected at most {LONGEST_LINE} bytes, found {}", line.len()));
        }
        let text = std::str::from_utf8(line).expect("printable ASCII is UTF-8").trim_matches(' ');
        let mut words = Words { counts_stop: self.counts_stop, ..Words::new(text) };
        match words.next("a word")? {
            "?" => self.question(words),
            "=" => self.answer(words),
            "list" => self.begin(text["list".len()..].trim_start_matches(' ')),
            keyword => self.give(keyword, words),
        }
    }

    fn begin(&mut self, title: &str) -> Result<Item, String> {
        self.list = Some(Given::new(title));
        self.stage = Stage::Giving;
        self.last = Last::Other;
        Ok(Item::Nothing)
    }

    fn question(&mut self, mut words: Words) -> Result<Item, String> {
        if self.list.is_none() {
            return Err("expected `list` before the first question".to_string());
        }
        let question = words.question()?;
        words.end()?;
        self.stage = Stage::Asked;
        Ok(Item::Question(question))
    }

    fn answer(&mut self, words: Words) -> Result<Item, String> {
        if self.stage != Stage::Asked {
            return Err("expected a question before an answer".to_string());
        }
        self.stage = Stage::Answered;
        Answer::parse(words.rest()).map(Item::Answer)
    }

    /// Reads a line of the list.
    fn give(&mut self, keyword: &str, mut words: Words) -> Result<Item, String> {
        let Some(list) = self.list.as_mut() else {
            return Err(format!("expected `list`, found `{keyword}`"));
        };
        if self.stage != Stage::Giving {
            return Err(format!("expected `?`, `=` or `list` after a question, found `{keyword}`"));
        }
        let is_constraint = give_constraint(list, keyword, &mut words, &mut self.last)?;
        if !is_constraint && !give_rows(list, keyword, &mut words)? && !give_rest(list, keyword, &mut words)? {
            return Err(format!("expected a word that begins a line, found `{keyword}`"));
        }
        words.end()?;
        if self.counts_stop {
            list.cut_to(usize::from(u16::MAX));
        }
        Ok(Item::Nothing)
    }
}

/// Lines that give sorts, nodes and variables. Returns whether the keyword is one of these.
fn give_rows(list: &mut Given, keyword: &str, words: &mut Words) -> Result<bool, String> {
    match keyword {
        "bare" => bare(list)?,
        "sort" => {
            words.label('s', list.sorts.len())?;
            let row = words.sort_row(&mut list.entries)?;
            list.sorts.push(row);
        }
        "entries" => list.entries.extend(words.numbers()?),
        "node" => {
            words.label('n', list.nodes.len())?;
            let row = words.node_row(&mut list.node_entries)?;
            list.nodes.push(row);
        }
        "node-entries" => list.node_entries.extend(words.numbers()?),
        "pad" => pad(list, words)?,
        "var" => {
            let variable = words.label('v', list.bindings.len())?;
            words.label('n', list.nodes.len())?;
            list.bindings.push(FREE);
            list.nodes.push(Row::plain(kind::VARIABLE, variable));
        }
        "vars" => {
            let more = words.number()?;
            list.bindings.resize(words.room(list.bindings.len(), more)?, FREE);
        }
        "bind" => bind(list, words)?,
        _ => return Ok(false),
    }
    Ok(true)
}

fn bare(list: &mut Given) -> Result<(), String> {
    if list.sorts.len() != FIXED_SORTS.len() || !list.entries.is_empty() {
        return Err("expected `bare` before the first sort".to_string());
    }
    list.sorts.clear();
    Ok(())
}

fn bind(list: &mut Given, words: &mut Words) -> Result<(), String> {
    let variable = words.named('v', "a variable (vN)")?;
    let place = words.place()?;
    match list.bindings.get_mut(usize::from(variable)) {
        None => Err(format!("expected a variable of a `var` or `vars` line, found `v{variable}`")),
        Some(word) if *word != FREE => Err(format!("expected one `bind` line for `v{variable}`")),
        Some(word) => {
            *word = place;
            Ok(())
        }
    }
}

/// Lines about expressions, the default, and what is lent.
fn give_rest(list: &mut Given, keyword: &str, words: &mut Words) -> Result<bool, String> {
    match keyword {
        "expr" => {
            words.label('e', list.exprs.len())?;
            list.exprs.push(words.place()?);
        }
        "name" => {
            let expression = words.named('e', "an expression (eN)")?;
            let (kind, sort) = words.target()?;
            list.names.push([expression, kind, sort]);
        }
        "default" => list.default = words.sort()?,
        "ceilings" => {
            list.ceilings = Ceilings {
                sorts: words.number()?.into(),
                entries: words.number()?.into(),
                nodes: words.number()?.into(),
                node_entries: words.number()?.into(),
            }
        }
        "count" => {
            let what = words.one_of(&Counted::ALL)?;
            list.set_count(what, words.number()?);
        }
        "lend" => {
            let what = words.one_of(&Lent::ALL)?;
            list.set_lend(what, words.number()?);
        }
        _ => return Ok(false),
    }
    Ok(true)
}

/// Lines that give constraints and the rows they refer to.
fn give_constraint(list: &mut Given, keyword: &str, words: &mut Words, last: &mut Last) -> Result<bool, String> {
    let (row, now) = match keyword {
        "sub" => ([constraint::SUB, words.place()?, words.place()?, 0, 0], Last::Other),
        "lit" => ([constraint::LIT, words.place()?, words.literal()?, 0, 0], Last::Other),
        "comprehension" => ([constraint::COMPREHENSION, words.place()?, words.place()?, words.sort()?, 0], Last::Other),
        "disjunction" => {
            let expression = words.named('e', "an expression (eN)")?;
            let start = words.count(list.overloads.len())?;
            ([constraint::DISJUNCTION, expression, words.place()?, start, 0], Last::Disjunction)
        }
        "join" => ([constraint::JOIN, words.place()?, words.count(list.sources.len())?, 0, 0], Last::Join),
        "constraint" => {
            let mut row = [0; CONSTRAINT];
            for field in &mut row {
                *field = words.number()?;
            }
            (row, Last::Other)
        }
        "overload" => return overload(list, words, *last).map(|()| true),
        "sources" => return sources(list, words, *last).map(|()| true),
        _ => return Ok(false),
    };
    list.constraints.push(row);
    *last = now;
    if now == Last::Join && !words.is_empty() {
        sources(list, words, now)?;
    }
    Ok(true)
}

/// Appends an overload; it belongs to the constraint line before it if that is a disjunction.
fn overload(list: &mut Given, words: &mut Words, last: Last) -> Result<(), String> {
    let row = match words.peek() {
        Some("raw") => {
            words.next("`raw`")?;
            [words.number()?, words.number()?, words.number()?]
        }
        _ => {
            let (kind, sort) = words.target()?;
            [kind, sort, words.place()?]
        }
    };
    list.overloads.push(row);
    words.count(list.overloads.len())?;
    if last == Last::Disjunction {
        let count = &mut list.constraints.last_mut().expect("a disjunction line came before")[4];
        *count = count.saturating_add(1);
    }
    Ok(())
}

/// Appends Join sources; they belong to the constraint line before them if that is a Join.
fn sources(list: &mut Given, words: &mut Words, last: Last) -> Result<(), String> {
    loop {
        list.sources.push(words.place()?);
        words.count(list.sources.len())?;
        if last == Last::Join {
            let count = &mut list.constraints.last_mut().expect("a Join line came before")[3];
            *count = count.saturating_add(1);
        }
        if words.is_empty() {
            return Ok(());
        }
    }
}

/// Fills a list with rows that nothing refers to.
fn pad(list: &mut Given, words: &mut Words) -> Result<(), String> {
    const LISTS: [(Counted, &str); 4] = [
        (Counted::Sorts, "sorts"),
        (Counted::Entries, "entries"),
        (Counted::Nodes, "nodes"),
        (Counted::NodeEntries, "node-entries"),
    ];
    let what = words.one_of(&LISTS)?;
    let more = words.number()?;
    let length = words.room(list.rows(what), more)?;
    match what {
        Counted::Sorts => {
            for number in list.sorts.len()..length {
                list.sorts.push(Row::plain(kind::DEF, words.count(number)?));
            }
        }
        Counted::Entries => list.entries.resize(length, 0),
        Counted::Nodes => list.nodes.resize(length, Row::plain(kind::LIST, kind::BOOL)),
        _ => list.node_entries.resize(length, 0),
    }
    Ok(())
}

/// The words of one line, each read with what is expected there.
pub struct Words<'a> {
    rest: &'a str,
    counts_stop: bool,
}

impl<'a> Words<'a> {
    pub fn new(text: &'a str) -> Words<'a> {
        Words { rest: text.trim_matches(' '), counts_stop: false }
    }

    /// A length as a 16-bit word.
    fn count(&self, length: usize) -> Result<u16, String> {
        match u16::try_from(length) {
            Err(_) if !self.counts_stop => Err("expected at most 65535 rows in a list".to_string()),
            word => Ok(word.unwrap_or(u16::MAX)),
        }
    }

    fn room(&self, rows: usize, more: u16) -> Result<usize, String> {
        self.count(rows + usize::from(more)).map(usize::from)
    }

    pub fn rest(self) -> &'a str {
        self.rest
    }

    pub fn is_empty(&self) -> bool {
        self.rest.is_empty()
    }

    fn peek(&self) -> Option<&'a str> {
        self.rest.split(' ').next().filter(|word| !word.is_empty())
    }

    pub fn next(&mut self, expected: &str) -> Result<&'a str, String> {
        let Some(word) = self.peek() else {
            return Err(format!("expected {expected}, found the end of the line"));
        };
        self.rest = self.rest[word.len()..].trim_start_matches(' ');
        Ok(word)
    }

    fn end(self) -> Result<(), String> {
        match self.peek() {
            None => Ok(()),
            Some(word) => Err(format!("expected the end of the line, found `{word}`")),
        }
    }

    pub fn number(&mut self) -> Result<u16, String> {
        let word = self.next("a number")?;
        parse_number(word).ok_or_else(|| format!("expected a number from 0 to 65535, found `{word}`"))
    }

    fn numbers(&mut self) -> Result<Vec<u16>, String> {
        let mut numbers = vec![self.number()?];
        while !self.is_empty() {
            numbers.push(self.number()?);
        }
        Ok(numbers)
    }

    /// A letter and a number, such as `v3`.
    fn named(&mut self, letter: char, expected: &str) -> Result<u16, String> {
        let word = self.next(expected)?;
        parse_named(word, letter).ok_or_else(|| format!("expected {expected}, found `{word}`"))
    }

    /// The name of a new row, which must be the next one of its list.
    fn label(&mut self, letter: char, rows: usize) -> Result<u16, String> {
        let expected = format!("`{letter}{rows}`, the next of its list");
        let word = self.next(&expected)?;
        match parse_named(word, letter) {
            Some(number) if usize::from(number) == rows => Ok(number),
            _ => Err(format!("expected {expected}, found `{word}`")),
        }
    }

    /// A sort number: `sN`, or a word for one of the fixed six.
    pub fn sort(&mut self) -> Result<u16, String> {
        let word = self.next("a sort (sN, or a word such as Nat)")?;
        parse_sort(word).ok_or_else(|| format!("expected a sort (sN, or a word such as Nat), found `{word}`"))
    }

    /// A place: a sort below 1,024, or `nN`.
    pub fn place(&mut self) -> Result<u16, String> {
        let word = self.next("a place (sN, nN, or a word such as Nat)")?;
        parse_place(word)
            .ok_or_else(|| format!("expected a place (sN below s1024, nN, or a word such as Nat), found `{word}`"))
    }

    fn one_of<T: Copy>(&mut self, table: &[(T, &str)]) -> Result<T, String> {
        let names: Vec<&str> = table.iter().map(|&(_, name)| name).collect();
        let expected = format!("one of {}", names.join(", "));
        let word = self.next(&expected)?;
        let found = table.iter().find(|&&(_, name)| name == word);
        found.map(|&(value, _)| value).ok_or_else(|| format!("expected {expected}, found `{word}`"))
    }

    fn literal(&mut self) -> Result<u16, String> {
        self.one_of(&[(literal::POSITIVE, "positive"), (literal::NATURAL, "natural")])
    }

    /// A name target: kind and sort.
    fn target(&mut self) -> Result<(u16, u16), String> {
        const RAW: u16 = u16::MAX;
        let targets = [(target::VARIABLE, "variable"), (target::OP, "op"), (target::BUILTIN, "builtin"), (RAW, "raw")];
        match self.one_of(&targets)? {
            target::OP => Ok((target::OP, self.sort()?)),
            RAW => Ok((self.number()?, self.number()?)),
            kind => Ok((kind, 0)),
        }
    }

    fn question(&mut self) -> Result<Question, String> {
        type Make = fn(u16, u16) -> Question;
        const OF_SORTS: [(Make, &str); 5] = [
            (Question::PartialCmp, "partial_cmp"),
            (Question::Join, "join"),
            (Question::Meet, "meet"),
            (Question::WideningDistance, "widening_distance"),
            (Question::IsMaterializable, "is_materializable"),
        ];
        match self.peek() {
            Some("solve") => self.next("`solve`").map(|_| Question::Solve),
            Some("unify") => {
                self.next("`unify`")?;
                Ok(Question::Unify(self.place()?, self.place()?))
            }
            Some(word) if OF_SORTS.iter().any(|&(_, name)| name == word) => {
                let make = self.one_of(&OF_SORTS)?;
                Ok(make(self.sort()?, self.sort()?))
            }
            _ => {
                let word = self.next("a question such as `solve`")?;
                Err(format!("expected a question such as `solve`, found `{word}`"))
            }
        }
    }

    /// The rest of a `sort` line; a function appends its arguments to `entries`.
    fn sort_row(&mut self, entries: &mut Vec<u16>) -> Result<Row, String> {
        let word = self.next("a kind of sort")?;
        if let Some(fixed) = FIXED_SORTS.iter().position(|&name| name == word) {
            return Ok(Row::plain(fixed as u16, 0));
        }
        if let Some(container) = container_kind(word) {
            return Ok(Row::plain(container, self.sort()?));
        }
        match word {
            "fn" => self.function(entries, Words::sort),
            "Def" => Ok(Row::plain(kind::DEF, self.number()?)),
            "TypeVar" => Ok(Row::plain(kind::TYPE_VAR, self.number()?)),
            "raw" => self.raw_row(),
            _ => Err(format!("expected a kind of sort (List, fn, Def, raw, ...), found `{word}`")),
        }
    }

    /// The rest of a `node` line; a function appends its arguments to `entries`.
    fn node_row(&mut self, entries: &mut Vec<u16>) -> Result<Row, String> {
        let word = self.next("a kind of node")?;
        if let Some(container) = container_kind(word) {
            return Ok(Row::plain(container, self.place()?));
        }
        match word {
            "fn" => self.function(entries, Words::place),
            "var" => Ok(Row::plain(kind::VARIABLE, self.named('v', "a variable (vN)")?)),
            "raw" => self.raw_row(),
            _ => Err(format!("expected a kind of node (List, fn, var, raw, ...), found `{word}`")),
        }
    }

    /// Arguments, `->`, range.
    fn function(
        &mut self,
        entries: &mut Vec<u16>,
        part: fn(&mut Words<'a>) -> Result<u16, String>,
    ) -> Result<Row, String> {
        let start = entries.len();
        while self.peek() != Some("->") {
            entries.push(part(self)?);
        }
        self.next("`->`")?;
        let range = part(self)?;
        self.count(entries.len())?;
        Ok(Row {
            kind: kind::FUNCTION,
            part: range,
            start: self.count(start)?,
            count: self.count(entries.len() - start)?,
        })
    }

    fn raw_row(&mut self) -> Result<Row, String> {
        Ok(Row { kind: self.number()?, part: self.number()?, start: self.number()?, count: self.number()? })
    }
}

fn container_kind(word: &str) -> Option<u16> {
    CONTAINERS.iter().position(|&name| name == word).map(|index| kind::LIST + index as u16)
}

/// Decimal, without sign and without leading zeros.
fn parse_number(word: &str) -> Option<u16> {
    let canonical = word == "0" || !word.starts_with('0');
    let digits = word.bytes().all(|byte| byte.is_ascii_digit());
    (canonical && digits).then(|| word.parse().ok()).flatten()
}

pub fn parse_named(word: &str, letter: char) -> Option<u16> {
    parse_number(word.strip_prefix(letter)?)
}

fn parse_sort(word: &str) -> Option<u16> {
    let fixed = FIXED_SORTS.iter().position(|&name| name == word).map(|index| index as u16);
    fixed.or_else(|| parse_named(word, 's'))
}

pub fn parse_place(word: &str) -> Option<u16> {
    match parse_named(word, 'n') {
        Some(node) => FIRST_NODE.checked_add(node),
        None => parse_sort(word).filter(|&sort| sort < FIRST_NODE),
    }
}

//! Whole inputs at the edges of the format, each a run of its own.

use lists::given::Counted;
use lists::given::Lent;

/// A list that has rows of every kind, with a typing.
const EVERYTHING: &str = "list everything
sort s6 Set Nat
sort s7 fn Nat Nat -> Bool
var v0 n0
var v1 n1
node n2 fn n0 -> n1
expr e0 n0
expr e1 n1
name e1 builtin
bind v1 s6
sub n0 Nat
disjunction e0 n0
overload op s7 Nat
overload variable Pos
join n1 s6
";

const NUMBERS: [u32; 24] = [
    0, 1, 2, 3, 4, 5, 6, 7, 8, 10, 15, 255, 256, 257, 512, 513, 1_024, 1_025, 2_048, 4_096, 8_191, 8_192, 12_288,
    65_535,
];

/// Lengths of lines.
const LENGTHS: [usize; 10] = [198, 199, 200, 201, 202, 203, 256, 400, 402, 4_097];
const LONGER: [usize; 6] = [4_095, 4_096, 65_535, 65_536, 65_537, 1_000_000];

/// All of them.
pub fn inputs() -> Vec<Vec<u8>> {
    let mut inputs = few();
    inputs.extend(lengths(&LONGER));
    inputs.extend(told());
    inputs
}

/// Those that are short and not of a kind that there are many of.
pub fn few() -> Vec<Vec<u8>> {
    let mut inputs = ends();
    inputs.extend(lengths(&LENGTHS));
    inputs.extend(limits());
    inputs.extend(past_counting());
    inputs.extend(spelling());
    inputs
}

/// Beginnings and ends of inputs.
fn ends() -> Vec<Vec<u8>> {
    let texts: [&[u8]; 60] = [
        b"",
        b"\n",
        b" ",
        b"\n\n\n",
        b"#",
        b"# only a comment",
        b"list",
        b"list\n",
        b"list a",
        b" list a \n",
        b"list  a",
        b"list a\nlist b\nlist c",
        b"list a\n? solve",
        b"list a\n? solve\n",
        b"list a\n? solve\n\n",
        b"list a\n? solve\n\0",
        b"\0",
        b"\0\n",
        b"\r\n",
        b"\t\nlist a\n? solve\n",
        b"list\ta\n? solve\n",
        b"list a\r\n? solve\r\n",
        b"list\0\n? solve\n",
        b"list a\n? solve\n= 0\n= 0\n= x\n",
        b"list a\n=\n? solve\n",
        b"= 0\nlist a\n? solve\n",
        b"list a\n? solve\n=0\n? solve\n",
        b"list a\n? solve\n=\n",
        b"list a\n? solve\n=\tx\n? solve\n",
        b"list a\n? solve\n= \xff\n? solve\n",
        b"? solve\n? solve\nlist a\n? solve\n",
        b"lists a\n? solve\n",
        b"List a\n? solve\n",
        b"list a\nfoo\nfoo\n? solve\nlist b\n? solve\n",
        b"list a\nfoo\nlist b\r\n? solve\nlist c\n? solve\n",
        b"list a\nlist b\r\n? solve\n",
        b"list a\n\tx\nlist b\n",
        b"list a\n? join Nat Pos\n? solve\n",
        b"list a\n? join Nat Pos\n",
        b"list a\n? join Nat Pos\nsub Nat Nat\n? solve\n",
        b"list a\n? solve\nsub Nat Nat\n? solve\nlist b\n? solve",
        b"list a\n?\n",
        b"list a\n?solve\n",
        b"list a\n? solve x\n",
        b"list a\n? Solve\n",
        b"list a\n  ?   solve  \n",
        b"list a\n? unify n64511 s1023\n? unify s1024 Nat\n",
        b"list a\n? partial_cmp s65535 unit\n",
        b"list a\n? meet Nat n0\n",
        b"list a\n? widening_distance Nat Nat Nat\n? solve\n",
        b"list a\n? is_materializable Pos Nat\n= 0 materializable yes\n? solve\n",
        b"\xef\xbb\xbflist a\n? solve\n",
        b"sub Nat Nat",
        b"list a\nbare\n? solve\n",
        b"list a\nbare\nbare\n? solve\n",
        b"list a\nentries 1\nbare\n? solve\n",
        b"list a\npad entries 0\nbare\n? solve\n",
        b"list a\nbare x\n? solve\n",
        b"list a\nsort s6 unit\nbare\n",
        b"list #\n#list\n? solve\n",
    ];
    texts.iter().map(|text| text.to_vec()).collect()
}

/// Lines of about 200 bytes and far more, by spaces and by other bytes.
fn lengths(lengths: &[usize]) -> Vec<Vec<u8>> {
    let mut inputs = Vec::new();
    for &length in lengths {
        let spaces = |line: &str| " ".repeat(length - line.len());
        for line in ["list b", "sub Nat Nat", "? solve", "= 0", "# x", "foo", ""] {
            let rest = "\nsub Nat Pos\n? solve\nlist c\n? solve\n";
            inputs.push(format!("list a\n{}{line}{rest}", spaces(line)).into_bytes());
            inputs.push(format!("list a\n{line}{}{rest}", spaces(line)).into_bytes());
            let (head, tail) = line.split_once(' ').unwrap_or((line, ""));
            inputs
                .push(format!("list a\n? solve\n{head}{} {tail}{rest}", " ".repeat(length - head.len())).into_bytes());
            for byte in [0, b'\t', b'\r', b'x', 0xff] {
                let mut input = format!("list a\n? solve\n{line}").into_bytes();
                input.extend(vec![byte; length - line.len()]);
                input.extend_from_slice(rest.as_bytes());
                inputs.push(input);
            }
        }
        inputs.push(format!("list {}", "t".repeat(length - 5)).into_bytes());
        inputs.push(format!("list {}\n? solve", "t".repeat(length - 5)).into_bytes());
    }
    inputs
}

fn rows(count: usize, row: &str) -> String {
    (0..count).map(|number| row.replace('&', &number.to_string()) + "\n").collect()
}

/// Every list at its ceiling, one below and one above; and above it with a count that is told.
fn limits() -> Vec<Vec<u8>> {
    let mut inputs = Vec::new();
    let mut add = |text: String| inputs.push(format!("list full\n{text}? solve\n").into_bytes());
    for (what, ceiling) in [("sorts", 1_018), ("nodes", 2_048), ("entries", 4_096), ("node-entries", 4_096)] {
        for count in [ceiling - 1, ceiling, ceiling + 1] {
            add(format!("pad {what} {count}\n"));
            add(format!("pad {what} {count}\ncount {what} 6\n"));
            add(format!("pad {what} {count}\nsort s{} List Nat\n", if what == "sorts" { count + 6 } else { 6 }));
        }
    }
    let listed = [
        ("vars", 512, "vars 1"),
        ("vars", 512, "var v& n&"),
        ("exprs", 512, "expr e& Bool"),
        ("constraints", 256, "lit Nat natural"),
        ("overloads", 1_024, "overload builtin Bool"),
        ("sources", 256, "sources Nat"),
        ("names", 512, "name e& variable"),
        ("names", 512, "name e0 variable"),
        ("sorts", 1_018, "vars 0"),
    ];
    for (what, ceiling, row) in listed {
        for count in [ceiling - 1, ceiling, ceiling + 1, ceiling + 60] {
            add(rows(count, row));
            add(format!("{}count {what} 3\n", rows(count, row)));
            add(format!("{}{}", rows(512, "expr e& Bool"), rows(count, row)));
            add(format!("disjunction e0 Bool\n{}count {what} 1\nexpr e0 Bool\n", rows(count, row)));
            add(format!("join Nat\n{}count {what} 1\n", rows(count, row)));
        }
    }
    for count in [254, 255, 256, 257] {
        add(format!("join Nat\n{}", rows(count, "sources Nat")));
        add(format!("lit Nat natural\njoin Nat\n{}", rows(count, "sources Nat")));
        add(format!(
            "{}disjunction e0 Bool\noverload builtin Bool\nexpr e0 Bool\ncount constraints 256\n",
            rows(count, "sub Nat Nat")
        ));
        add(format!("{}join Nat Nat\ncount constraints 256\n", rows(count, "sub Nat Nat")));
    }
    inputs
}

/// Counts that are told and lengths that are lent.
fn told() -> Vec<Vec<u8>> {
    let mut inputs = Vec::new();
    let mut of = |lines: &mut dyn Iterator<Item = String>| {
        inputs.push(lines.map(|line| format!("{EVERYTHING}{line}? solve\n")).collect::<String>().into_bytes());
    };
    for (_, count) in Counted::ALL {
        of(&mut NUMBERS.iter().map(|number| format!("count {count} {number}\n")));
    }
    for (_, lend) in Lent::ALL {
        of(&mut NUMBERS.iter().map(|number| format!("lend {lend} {number}\n")));
        for (_, count) in Counted::ALL {
            for lent in NUMBERS {
                of(&mut NUMBERS.iter().map(|number| format!("lend {lend} {lent}\ncount {count} {number}\n")));
            }
        }
    }
    inputs
}

/// Rows past 65,535, of which no count can be told.
fn past_counting() -> Vec<Vec<u8>> {
    let texts = [
        "pad sorts 65535\n",
        "pad sorts 65529\n",
        "pad sorts 65530\n",
        "pad sorts 65529\nsort s65535 Def 1\n",
        "pad sorts 65535\npad sorts 65535\n",
        "pad sorts 65535\ncount sorts 6\n",
        "vars 65535\nvars 65535\n",
        "vars 65535\nvars 1\ncount vars 1\n",
        "vars 65535\nbind v65534 Nat\n",
        "vars 65535\nbind v65535 Nat\n",
        "vars 600\nbind v511 Nat\nbind v512 Nat\nbind v599 Nat\n",
        "vars 600\nbind v550 Nat\nbind v550 Nat\n",
        "vars 600\nbind v600 Nat\n",
        "vars 600\nbind v600 Nat Nat\n",
        "vars 600\nbind v511 Nat\nbind v511 Nat\n",
        "vars 1\nbind v0 n64511\n",
        "vars 1\nbind v0 Nat\nbind v0 n64511\n",
        "pad entries 65535\nentries 1\nsort s6 fn Nat -> Nat\n",
        "pad entries 65535\nentries 1\nsort s6 fn Nat -> Nat\ncount entries 4096\n",
        "pad entries 65534\nsort s6 fn Nat Nat -> Nat\ncount entries 0\n",
        "pad node-entries 65535\nnode n0 fn Nat Nat -> Nat\n",
        "pad node-entries 65535\nnode n0 fn Nat -> Nat\ncount node-entries 7\n",
        "pad nodes 65535\n",
        "pad nodes 65535\npad nodes 1\ncount nodes 2048\n",
        "pad nodes 65535\nnode n65535 List Nat\ncount nodes 0\n",
        "pad sorts 65536\n",
        "pad exprs 1\n",
        "pad sorts\n",
        "pad sorts 1 1\n",
        "pad entries 4095\nsort s6 fn Nat Nat -> Nat\ncount entries 4096\n",
        "pad entries 4095\nsort s6 fn Nat -> Nat\n",
        "default s65535\n",
        "default s65536\n",
        "expr e0 s1023\n",
        "expr e0 s1024\n",
        "expr e0 n64511\n",
        "expr e0 n64512\n",
        "name e65535 op s65535\n",
        "name e65536 variable\n",
        "sort s6 Def 65535\nexpr e0 s6\n",
        "sort s6 raw 65535 65535 65535 65535\n",
        "constraint 65535 65535 65535 65535 65535\n",
        "overload raw 65535 65535 65535\n",
        "sort s6 fn Nat Nat Nat Nat Nat Nat Nat Nat Nat Nat Nat Nat Nat Nat Nat Nat -> Nat\nexpr e0 s6\n",
        "sort s6 fn Nat Nat Nat Nat Nat Nat Nat Nat Nat Nat Nat Nat Nat Nat Nat Nat Nat -> Nat\n",
        "sort s7 List\n",
        "sort s7 List Nat\n",
        "sort 6 List Nat\n",
        "sort s6 fn -> Nat\nexpr e0 s6\n",
        "sort s6 fn Nat ->\n",
        "sort s6 fn Nat\n",
        "sort s6 fn -> -> Nat\n",
        "sort s6 fn Nat -> Nat Nat\n",
        "sort s6\n",
        "sort\n",
        "var v0 n1\n",
        "var v1 n0\n",
        "var v1 n1\n",
        "var v0\n",
        "var v1 x\n",
        "node n0 var v65535\n",
        "node n0 var n0\n",
        "node n0 Def 1\n",
        "node n1 Def 1\n",
        "join\n",
        "join Nat x\n",
        "join Nat Nat -> Nat\n",
        "sources\n",
        "sources Nat x\n",
        "entries\n",
        "entries 65536\n",
        "entries 1 x\n",
        "ceilings 1 2 3\n",
        "ceilings 1 2 3 4\nvar v0 n0\nexpr e0 n0\nsort s6 Set Nat\n",
        "ceilings 1 2 3 4 5\n",
        "count sorts\n",
        "count scratch 1\n",
        "lend vars 1\n",
        "lend scratch\n",
        "lend index\n",
        "lend index 2047\n",
        "count index 1\n",
        "lit Nat\n",
        "lit Nat zero\n",
        "lit Nat natural natural\n",
        "overload\n",
        "overload op\n",
        "overload op Nat\n",
        "overload raw 1 2\n",
        "disjunction\n",
        "disjunction e0\n",
        "disjunction v0 Nat\n",
        "comprehension Nat Nat n0\n",
        "comprehension Nat Nat\n",
        "expr e1 Nat\n",
        "expr e1 x\n",
        "expr e0\n",
    ];
    texts.iter().map(|text| format!("list past\n{text}? solve\nlist next\n? solve\n").into_bytes()).collect()
}

/// Sorts with texts of about 200 bytes, and the longest answers.
fn spelling() -> Vec<Vec<u8>> {
    let mut inputs = Vec::new();
    for depth in 30..40 {
        for tail in ["Nat", "Bool", "unit"] {
            let mut text = format!("list deep\nsort s6 Set {tail}\n");
            for number in 7..7 + depth {
                let container = ["Set", "List", "FBag", "FSet", "Bag"][number % 5];
                text.push_str(&format!("sort s{number} {container} s{}\n", number - 1));
            }
            for (number, sort) in (6..7 + depth).enumerate() {
                text.push_str(&format!("expr e{number} s{sort}\nname e{number} op s{}\n", 7 + depth - 1 - number));
            }
            inputs.push((text + "? solve\n").into_bytes());
        }
    }
    for (first, arguments) in [("Real", 27), ("Bool", 28), ("Pos", 33), ("Int", 16)] {
        for more in 0..8 {
            let mut text =
                format!("list functions\nsort s6 fn{} -> Nat\n", format!(" {first}").repeat(arguments.min(16)));
            for number in 7..16 {
                text.push_str(&format!(
                    "sort s{number} fn{} -> s{}\n",
                    " Pos".repeat(1 + (number + more) % 7),
                    number - 1
                ));
            }
            text.push_str(&(0..10).map(|number| format!("expr e{number} s{}\n", number + 6)).collect::<String>());
            inputs.push((text + "? solve\n").into_bytes());
        }
    }
    for most in [198, 199, 200] {
        inputs.push(longest_answer(most).into_bytes());
    }
    inputs
}

/// 512 expressions and operations whose sorts are spelt in so many bytes, all of them choices.
fn longest_answer(bytes: usize) -> String {
    // ` -> ` and `Nat # ` have 4 and 6 bytes: `Nat # ... -> Nat` of n arguments has 6 n + 4, and `List()` has 6 more.
    let arguments = 16;
    let mut text = format!("list longest\nsort s6 fn{} -> Nat\n", " Nat".repeat(arguments));
    let mut length = 6 * arguments + 4;
    let mut number = 6;
    while length + 5 <= bytes {
        let (word, more) = if length + 6 <= bytes && (bytes - length) % 5 != 0 { ("List", 6) } else { ("Set", 5) };
        number += 1;
        length += more;
        text.push_str(&format!("sort s{number} {word} s{}\n", number - 1));
    }
    text.push_str("var v0 n0\nvar v1 n1\nnode n2 Set n0\n");
    for expression in 0..512 {
        text.push_str(&format!("expr e{expression} s{number}\n"));
    }
    for expression in 0..254 {
        text.push_str(&format!("disjunction e{expression} s{number}\noverload op s{number} s{number}\n"));
    }
    for expression in 254..512 {
        text.push_str(&format!("name e{expression} op s{number}\n"));
    }
    text.push_str(&format!("sub n0 s{number}\nsub n2 n1\n? solve\n"));
    text
}

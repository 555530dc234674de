//! The memory of a solver, which is used again from problem to problem.

use crate::NewSorts;
use crate::Problem;
use crate::Refusal;
use crate::SortId;
use crate::Typing;
use crate::call;
use crate::call::Lent;
use crate::sort::Made;
use crate::sort::Row;
use crate::stack;

const MAX_SORTS: usize = 1_024;
const MAX_NODES: usize = 2_048;
const MAX_ENTRIES: usize = 4_096;
const MAX_VARIABLES: usize = 512;
const MAX_EXPRESSIONS: usize = 512;
const MAX_CONSTRAINTS: usize = 256;
const MAX_COMPONENTS: usize = 256;
const SCRATCH: usize = 4_096;
const INDEX: usize = 2_048;

/// Where the arguments begin in the storage of sorts and of nodes.
const ENTRIES_AT: usize = 4 * MAX_SORTS;
const NODE_ENTRIES_AT: usize = 4 * MAX_NODES;

/// The memory that the library is lent, at its full ceilings: about 75 kB with what it keeps. [Workspace::solve] allocates nothing
/// (a clone of a workspace may, the first time), but for a problem so large that the stack of a thread might not do: that one
/// runs in a thread of its own with more, and where none can be had on the stack of the caller.
///
/// ```
/// use julqetai::{Problem, Refusal, SortId, Workspace};
///
/// let mut workspace = Workspace::new();
/// for (from, to, measure) in [(SortId::POS, SortId::NAT, 1), (SortId::POS, SortId::REAL, 3)] {
///     let mut problem = Problem::new();
///     problem.sub(from, to);
///     assert_eq!(workspace.solve(&problem)?.measure(), [measure]);
/// }
/// # Ok::<(), Refusal>(())
/// ```
#[derive(Clone, Debug)]
pub struct Workspace {
    sorts: Box<[u16]>,
    nodes: Box<[u16]>,
    binds: Box<[u16]>,
    scratch: Box<[u16]>,
    /// By which a search finds its sorts. Zero between calls, as the library leaves it.
    index: Box<[u16]>,
    typing: Box<[[u16; 3]]>,
    measure: Box<[u16]>,
    choices: Box<[[u16; 2]]>,
    /// The sorts that the last search made.
    new: Made,
    /// How much of the caller's stack a search may take.
    stack: usize,
}

impl Default for Workspace {
    fn default() -> Workspace {
        Workspace::new()
    }
}

/// The parts of the library's answer.
struct Answer(u64);

impl Answer {
    fn part(&self, from: u32, bits: u32) -> usize {
        (self.0 >> from & ((1 << bits) - 1)) as usize
    }

    fn code(&self) -> u8 {
        self.0.to_le_bytes()[0]
    }

    /// Sorts and arguments after the call, under 0, 17 and 18.
    fn kept(&self) -> (usize, usize) {
        (self.part(8, 16), self.part(24, 16))
    }

    fn components(&self) -> usize {
        self.part(40, 12)
    }

    fn choices(&self) -> usize {
        self.part(52, 12)
    }
}

impl Workspace {
    /// Memory for any problem.
    pub fn new() -> Workspace {
        let words = |length: usize| vec![0; length].into_boxed_slice();
        Workspace {
            sorts: words(ENTRIES_AT + MAX_ENTRIES),
            nodes: words(NODE_ENTRIES_AT + MAX_ENTRIES),
            binds: words(MAX_VARIABLES),
            scratch: words(SCRATCH),
            index: words(INDEX),
            typing: vec![[0; 3]; MAX_EXPRESSIONS].into_boxed_slice(),
            measure: words(MAX_COMPONENTS),
            choices: vec![[0; 2]; MAX_CONSTRAINTS].into_boxed_slice(),
            new: Made { given: 0, rows: Vec::with_capacity(MAX_SORTS), entries: Vec::with_capacity(MAX_ENTRIES) },
            stack: stack::CALLER,
        }
    }

    /// Says how many bytes of its stack the caller can spare, in place of 1 MB. A problem that may take more runs in a
    /// thread of its own, which costs about half a millisecond; with 6 MB none does. If it is less than said, the program
    /// can run out of stack and be aborted.
    ///
    /// ```
    /// use julqetai::{Problem, SortId, Workspace};
    ///
    /// let mut problem = Problem::new();
    /// (0..256).for_each(|_| problem.sub(SortId::POS, SortId::NAT));
    /// let mut workspace = Workspace::new();
    /// workspace.set_stack(0); // All problems in threads of their own.
    /// assert_eq!(workspace.solve(&problem)?.measure(), [1; 256]);
    /// workspace.set_stack(6 << 20); // None: the main thread has 8 MB.
    /// # workspace.set_stack(1 << 20);
    /// assert_eq!(workspace.solve(&problem)?.measure(), [1; 256]);
    /// # Ok::<(), julqetai::Refusal>(())
    /// ```
    pub fn set_stack(&mut self, bytes: usize) {
        self.stack = bytes;
    }

    /// Infers the sorts of the expressions, as merc's `Solver::solve(0)` does.
    ///
    /// ```
    /// use julqetai::{Problem, Refusal, SortId, Workspace};
    ///
    /// // A comprehension over Pos with a free body is a set or a bag: ambiguous, but both sorts are made.
    /// let mut problem = Problem::new();
    /// let ((_, body), (_, node)) = (problem.fresh_var(), problem.fresh_var());
    /// problem.comprehension(body, node, SortId::POS);
    ///
    /// let mut workspace = Workspace::new();
    /// match workspace.solve(&problem) {
    ///     Ok(typing) => println!("{:?}", typing.measure()),
    ///     Err(refusal) => {
    ///         assert_eq!(refusal, Refusal::Ambiguous);
    ///         assert_eq!(workspace.new_sorts().len(), 2);
    ///     }
    /// }
    /// ```
    pub fn solve(&mut self, problem: &Problem) -> Result<Typing<'_>, Refusal> {
        let answer = self.ask(problem);
        match answer.code() {
            0 => Ok(self.typing(problem, &answer)),
            code => Err(refusal(code)),
        }
    }

    /// The same, and puts the sorts that the search made into the list of the problem: after a typing, after
    /// [Refusal::NoTyping] and after [Refusal::Ambiguous], as merc's interner keeps them.
    ///
    /// ```
    /// use julqetai::{ComplexSort, Problem, Refusal, Sort, SortId, Workspace};
    ///
    /// let mut problem = Problem::new();
    /// let ((_, body), (_, node)) = (problem.fresh_var(), problem.fresh_var());
    /// problem.comprehension(body, node, SortId::POS);
    /// assert_eq!(Workspace::new().solve_and_keep(&mut problem), Err(Refusal::Ambiguous));
    /// assert_eq!(problem.sort(SortId(6)), Some(Sort::Container { op: ComplexSort::Set, subsort: SortId::POS }));
    /// assert_eq!(problem.sort(SortId(7)), Some(Sort::Container { op: ComplexSort::Bag, subsort: SortId::POS }));
    /// ```
    pub fn solve_and_keep(&mut self, problem: &mut Problem) -> Result<Typing<'_>, Refusal> {
        let answer = self.ask(problem);
        for (_, sort) in self.new_sorts() {
            problem.add_sort(sort);
        }
        match answer.code() {
            0 => Ok(self.typing(problem, &answer)),
            code => Err(refusal(code)),
        }
    }

    /// The sorts that the last search made, also if it ended with [Refusal::NoTyping] or [Refusal::Ambiguous]. After
    /// any other refusal there are none.
    pub fn new_sorts(&self) -> NewSorts<'_> {
        NewSorts { list: &self.new, next: 0 }
    }

    fn ask(&mut self, problem: &Problem) -> Answer {
        put(&mut self.sorts, ENTRIES_AT, &problem.sorts.rows, problem.sorts.entries.iter().map(|sort| sort.0));
        put(&mut self.nodes, NODE_ENTRIES_AT, &problem.nodes, problem.node_entries.iter().copied());
        let variables = problem.bindings.len().min(MAX_VARIABLES);
        self.binds[..variables].copy_from_slice(&problem.bindings[..variables]);
        let lent = Lent {
            sorts: &mut self.sorts,
            sort_count: problem.sorts.rows.len(),
            entry_count: problem.sorts.entries.len(),
            nodes: &mut self.nodes,
            node_count: problem.nodes.len(),
            node_entry_count: problem.node_entries.len(),
            binds: &mut self.binds,
            var_count: problem.bindings.len(),
            exprs: &problem.exprs,
            expr_count: problem.exprs.len(),
            names: problem.names.as_flattened(),
            name_count: problem.names.len(),
            constraints: problem.constraints.as_flattened(),
            constraint_count: problem.constraints.len(),
            overloads: &problem.overloads,
            overload_count: problem.overloads.len(),
            sources: &problem.sources,
            source_count: problem.sources.len(),
            default: problem.default.0,
            scratch: &mut self.scratch,
            index: &mut self.index,
            typing: self.typing.as_flattened_mut(),
            measure: &mut self.measure,
            choices: self.choices.as_flattened_mut(),
        };
        let answer = Answer(stack::call(problem, self.stack, || call::solve(lent)));
        self.read_new(problem, &answer);
        answer
    }

    /// Reads the rows and arguments past those of the problem.
    fn read_new(&mut self, problem: &Problem, answer: &Answer) {
        self.new.rows.clear();
        self.new.entries.clear();
        self.new.given = problem.sorts.rows.len();
        if !matches!(answer.code(), 0 | 17 | 18) {
            return;
        }
        let (sorts, entries) = answer.kept();
        let given_entries = problem.sorts.entries.len();
        for row in self.sorts[4 * self.new.given..4 * sorts].chunks_exact(4) {
            // A run counts from the first argument of the list; here the given ones are left out.
            let start = usize::from(row[2]).saturating_sub(given_entries);
            self.new.rows.push([row[0], row[1], start as u16, row[3]]);
        }
        let arguments = &self.sorts[ENTRIES_AT..][given_entries..entries];
        self.new.entries.extend(arguments.iter().map(|&sort| SortId(sort)));
    }

    fn typing(&self, problem: &Problem, answer: &Answer) -> Typing<'_> {
        Typing {
            rows: &self.typing[..problem.exprs.len()],
            measure: &self.measure[..answer.components()],
            choices: &self.choices[..answer.choices()],
            new: self.new_sorts(),
        }
    }
}

/// Rows, then arguments at their fixed place. Those past a ceiling are left out: a list that has them is refused by its
/// count.
fn put(words: &mut [u16], entries_at: usize, rows: &[Row], entries: impl Iterator<Item = u16>) {
    let (row_words, entry_words) = words.split_at_mut(entries_at);
    for (words, row) in row_words.chunks_exact_mut(4).zip(rows) {
        words.copy_from_slice(row);
    }
    for (word, entry) in entry_words.iter_mut().zip(entries) {
        *word = entry;
    }
}

fn refusal(code: u8) -> Refusal {
    Refusal::from_code(code).unwrap_or_else(|| panic!("the library answers {code}: it is not the proved one"))
}

#!/bin/bash
# Compares the Rust crate over the port's solver with the excerpt of merc: lists are put in by the crate's safe types, and
# verdict, sorts, names, measure, choices and the sorts that were made are read out by them. Before that it shows that the
# comparison can fail: lists that are changed behind the crate's back must be found. Then as many problems with any numbers
# in every field are asked. The library is proved and built first where it is not there or older than its crates.
# usage: compare.sh rust [--questions N] [--seed N]
#   --questions N  lists in all, each asked once, and as many problems with any numbers (default 100000)
#   --seed N       seed of the random numbers (default 7)
counted=lists limit=--count whole=1000
# Lists that the crate's types cannot say are the next class's too.
shares=(small 240 short 40 damaged 70 words 40 few 120 edge 84 dropped 100 full 3 large 2 deep 1 clash 10 solve 110 choice 90 join 90)
. "$(dirname "$0")/shared.sh"
known=(questions seed)
questions=100000
compare=compare/rust/target/release/oracle-rust-compare

# Changes of lists, each with a class that shows it.
changes=(sub-swapped few literal-kind solve comprehension-swapped choice element choice overloads-reversed choice
    overload-target choice sources-reversed join last-constraint-dropped few constraints-reversed few
    bindings-dropped few names-dropped solve default solve exprs-reversed solve fset-as-set few)

options "$@"
prove solve_records
step "build"
merc/setup.sh
(cd compare/rust && cargo build --release --offline --quiet)

step "changed lists are found"
for ((index = 0; index < ${#changes[@]}; index += 2)); do
    change=${changes[index]} class=${changes[index + 1]}
    if found=$("$compare" --class "$class" --seed "$seed" --count 20000 --wrong "$change" 2>&1 > /dev/null); then
        fail "$change was not found in 20000 lists of class $class"
    fi
    found=${found%%$'\n'*}
    echo "$change: ${found#oracle-rust-compare: }" | cut -c1-140
done

ask_shares

step "any numbers in every field"
ask wild "$questions"

echo "compare rust: $total lists and $asked problems with any numbers, no difference"

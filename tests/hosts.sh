#!/bin/sh
# The hosts in C and Rust over the archive, and what they are made of: what they print against the text stored beside
# them, the headers from C++, the buffers kept apart, the answers in words, the commands of hosts/README.md;
# then hosts of version 1, example/show.py and the installation.
set -eu
unset CDPATH
. "$(dirname "$0")/../scripts/settings.sh"
x86_archive=$ARCHIVE
need_archive
need_program_filed
out=$root/target/hosts
mkdir -p "$out"

wrong() { echo "$*"; exit 1; }
run() { # NAME
    "$out/host-$1" >"$out/$1.out"
    cat "$out/$1.out"
    cmp "$out/$1.out" "$root/hosts/$1/expected.txt"
    echo "the host in $1 prints what is stored"
}
compile_test() { # FOLDER SOURCE OUTPUT: a test of the headers in FOLDER, without the archive
    "$CC" -std=c11 -O2 -Wall -Wextra -Werror -I "$root/include" -I "$1" "$root/tests/c/$2" -o "$3"
}

# hosts/c/correct.c, against the program overlap_filed.
corrects() { # INPUT EXIT TEXT OUTPUT
    code=0
    "$out/correct" <"$1" >"$out/corrected" 2>"$out/said" || code=$?
    if [ "$code" != "$2" ] || [ "$(cat "$out/said")" != "correct: $3" ]; then wrong "correct on $1: exit $code, $(cat "$out/said")"; fi
    cmp "$out/corrected" "$4"
}
test_correct() {
    compile_c "$root/hosts/c/correct.c" "$out/correct"
    "$PROGRAM_FILED" <"$root/example/filed" | tail -n +2 >"$out/once"
    head -c 100 "$out/once" >"$out/torn"
    corrects "$root/example/filed" 0 "corrected" "$out/once"
    corrects "$out/once" 0 "already done" "$out/once"
    corrects "$out/torn" 1 "refused: no trailer, or not the last 50 bytes (number 20)" /dev/null
    corrects "$root/example/group" 1 "refused: the group ends within a record (number 11, record with index 0)" /dev/null
    echo "hosts/c/correct.c corrects a filed group as overlap_filed does, and says its answer"
}

# Buffers that aren't apart: an assertion ends the C host, and a Rust host doesn't compile.
test_apart() {
    compile_test "$root/hosts/c" apart.c "$out/apart"
    "$out/apart"
    compile_c "$root/tests/c/in_place.c" "$out/in-place"
    if ("$out/in-place" || exit 1) >"$out/said" 2>&1; then wrong "a group was corrected in place"; fi
    grep -q 'overlap_apart(filed, len, out, len)' "$out/said" || wrong "in place: $(cat "$out/said")"
    echo "the C host asserts that a group isn't corrected in place"
}
rust_with() { # EXPRESSION: compiles a program that has it
    cat >"$out/borrows.rs" <<END_OF_RUST
use overlap::*;
fn main() {
    let (mut a, mut b, mut counts) = (vec![0u8; 50], vec![0u8; 50], Counts::default());
    println!("{}", $1);
    (a[0], b[0]) = (0, 0);
}
END_OF_RUST
    rustc --edition 2024 --emit metadata --extern overlap="$out/liboverlap.rlib" "$out/borrows.rs" -o "$out/borrows.rmeta" 2>"$out/said"
}
refused_by_rustc() { # ERROR EXPRESSION
    if rust_with "$2"; then wrong "rustc should refuse $2"; fi
    [ "$(grep -o '^error\[E[0-9]*\]' "$out/said")" = "error[$1]" ] || wrong "rustc refuses $2, but not with $1: $(cat "$out/said")"
}
test_borrows() {
    ways='Agreement::Consensus, Disagreement::Consensus'
    rust_with 'correct_filed(&a, &mut b, &mut counts)' || wrong "$(cat "$out/said")"
    rust_with "call(&mut a, &mut b, $ways, CAP_MAX, &mut counts)" || wrong "$(cat "$out/said")"
    rust_with 'reason(&a, &a)' || wrong "$(cat "$out/said")"
    refused_by_rustc E0502 'correct_filed(&a, &mut a, &mut counts)'
    refused_by_rustc E0499 "call(&mut a, &mut a, $ways, CAP_MAX, &mut counts)"
    refused_by_rustc E0061 "call(&mut a, &mut b, $ways, &mut counts)"
    echo "a Rust host with one buffer in two places doesn't compile, but for a reason, where both are only read; nor does one without a cap"
}

# The answers in words, and that the test finds a word that is another, and an index that no answer has.
finds_broken() { # EDIT SAID: the texts after the edit differ, and one of them has SAID in it
    mkdir -p "$out/broken"
    for file in overlap_text.h answers.def; do sed "$1" "$root/hosts/c/$file" >"$out/broken/$file"; done
    compile_test "$out/broken" answers.c "$out/broken/answers-c"
    if python3 "$root/tests/answers.py" "$out/broken/answers-c" >"$out/said"; then wrong "not found by tests/answers.py: $1"; fi
    grep -q "got: .*$2" "$out/said" || wrong "$1 isn't what is found: $(cat "$out/said")"
}
test_answers() { # PROGRAM...
    compile_test "$root/hosts/c" answers.c "$out/answers-c"
    python3 "$root/tests/answers.py" "$out/answers-c" "$@"
    finds_broken 's/record under 32 bytes/record under 33 bytes/' 'under 33 bytes'
    finds_broken 's/the references differ/the references are apart/' 'the references are apart'
    finds_broken 's/16376u/16377u/' 'operation with index 16376'
}

test_cpp() {
    cxx=${CXX:-$(command -v c++ || command -v g++ || command -v clang++ || :)}
    [ -n "$cxx" ] || { echo "NOT RUN: the headers from C++, as there is no C++ compiler"; return; }
    "$cxx" -std=c++17 -O2 -Wall -Wextra -Wpedantic -Werror -I "$root/include" -I "$root/hosts/c" "$root/tests/c/host.cpp" "$ARCHIVE" -o "$out/host-cpp"
    said=$("$out/host-cpp")
    [ "$said" = "no overlap
no overlap: a read has no reference length
refused: record under 32 bytes (number 1, second record)
refused: cap outside of 2 to 93 (number 22)" ] || wrong "the host in C++ prints $said"
    echo "a host in C++ compiles and runs"
}

# Every command of hosts/README.md, as written. Those in Rust come last there.
test_readme() {
    command -v cc >/dev/null || { echo "NOT RUN: the commands of hosts/README.md, as there is no cc"; return; }
    sed -n 's/^    //p' "$root/hosts/README.md" | if have_rustc; then cat; else sed '/^rustc/,$d'; fi >"$out/readme.sh"
    (cd "$root" && sh -eu "$out/readme.sh") >"$out/said" 2>&1 || wrong "a command of hosts/README.md fails: $(cat "$out/said")"
    cmp "$root/target/corrected" "$root/target/again"
    echo "the commands of hosts/README.md run as written"
}

compile_c "$root/hosts/c/host.c" "$out/host-c"
run c
test_correct
test_apart
test_cpp
if have_rustc; then
    rustc --edition 2024 -O --crate-type rlib --crate-name overlap "$root/hosts/rust/overlap.rs" -o "$out/liboverlap.rlib"
    for program in hosts/rust/main.rs:host-rust tests/answers.rs:answers-rust; do
        rustc --edition 2024 -O "$root/${program%:*}" --extern overlap="$out/liboverlap.rlib" -C link-arg="$ARCHIVE" -o "$out/${program#*:}"
    done
    run rust
    test_borrows
    test_answers "$out/answers-rust"
else
    echo "NOT RUN: the host in rust, as there is no rustc that knows edition 2024; get it by: $GET_RUSTC"
    test_answers
fi
test_readme
ARCHIVE=$x86_archive sh "$root/tests/version.sh"
python3 -B "$root/tests/show.py"
sh "$root/tests/install.sh"

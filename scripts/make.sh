#!/bin/sh
# Makes the archive and the programs, of what is proved alone, and puts them where the other scripts look for them:
# target/staticlib/liboverlap_c.a, target/bin/overlap and target/bin/overlap_filed. What was made of the same files by
# the same kit stays. target/make.log has what rt says meanwhile.
#   scripts/make.sh [NAME..]     NAME is overlap_c, overlap or overlap_filed; all three unless some are named
#   scripts/make.sh after-ci     all three of what rt ci proved just now and left: for tests/all
set -eu
. "$(dirname "$0")/settings.sh"
cd "$root"
need_tool rt
mkdir -p target
log=target/make.log

sum() { # of all that the archive and the programs are made of
    {
        rt version
        find crates.txt crates \( -name out -o -name must-fail \) -prune -o -type f \( -name crates.txt -o -name '*.rt' -o -name '*.antt' \) -print |
            LC_ALL=C sort | xargs sha256sum
    } | sha256sum
}
by_rt() { # CRATE VERB: proves the crate, with what is below it, and builds it. What is said is shown where that fails
    (cd "crates/$1" && rt "$2") </dev/null >"$log" 2>&1 || { cat "$log"; exit 1; } >&2
}

# The archive is that of the crate overlap_c_c, which has the exports and nothing else.
archive() {
    by_rt overlap_c_c lib
}
program() { # NAME: rt also runs it, here on no input
    by_rt "$1" run
}

# rt ci runs the programs, and they stay. It makes no archive, and rt lib takes none of its libraries: it would prove
# them again, one by one. Where there are no others, as in a clean clone, the archive is made over those.
archive_after_ci() {
    home=$(kit_home) libraries=$(sed -n 's/^overlap_c_c staticlib: //p' crates.txt)
    set --
    for library in crates/*/out/rlib/*.rlib; do
        [ ! -e "$(dirname "$library")/stamp" ] || { archive; return; }   # one of rt check or rt lib
        set -- "$@" -L "dependency=$root/$(dirname "$library")"
    done
    for library in $libraries; do
        set -- "$@" --extern "$library=$root/crates/$library/out/rlib/$library.rlib"
    done
    (cd crates/overlap_c_c && "$home/bin/rattle" build --crate-name overlap_c_c --crate-type staticlib --links overlap_c_c= \
        --extern std="$home/rlibs/std.rlib" -L dependency="$home/rlibs" "$@" --antt-project "$home/rattle/logic/antt-project.json" \
        --logic-built "$home/logic_built" --toolchain "$(kit)" --backend llvm -o out/liboverlap_c_c.a src/lib.rt) >"$log" 2>&1 || archive
}

put() { # NAME MADE FILE COMMAND..: has the command make MADE, and copies it to FILE
    name=$1 made=$2 file=$3
    shift 3
    if ! native; then need "$file" "making it on x86-64, for which alone today's kit is, and copying target/ from there"; return; fi
    if [ -e "$file" ] && [ "$(cat "target/made/$name" 2>/dev/null)" = "$sum" ]; then return; fi
    "$@"
    mkdir -p "$(dirname "$file")" target/made
    rm -f "$file" "target/made/$name"
    cp "$made" "$file"
    echo "$sum" >"target/made/$name"
    echo "made $file"
}

sum=$(sum)
archive=archive program=program
if [ "$*" = after-ci ]; then archive=archive_after_ci program=true; set --; fi
[ $# -gt 0 ] || set -- overlap_c overlap overlap_filed
for name; do
    case $name in
    overlap_c) put overlap_c crates/overlap_c_c/out/liboverlap_c_c.a target/staticlib/liboverlap_c.a $archive ;;
    overlap | overlap_filed) put "$name" "crates/$name/out/$name" "target/bin/$name" $program "$name" ;;
    *) echo "make.sh: name some of overlap_c, overlap, overlap_filed" >&2; exit 2 ;;
    esac
done

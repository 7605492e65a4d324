#!/bin/sh
# Runs the incident of WHICH-SET-COUNTS.md through the program and prints what the page shows.
#   docs/which-set-counts.sh           prints
#   docs/which-set-counts.sh --check   prints, and compares with the page
set -eu
. "$(dirname "$0")/../scripts/settings.sh"
need_program
need_program_filed
work=$(mktemp -d)
trap 'rm -rf "$work"' EXIT

bytes() { for h in $1; do printf %b "\\0$(printf %03o "0x$h")"; done; } # HEXADECIMAL

# A group of two reads named "a", both 4M at position 10: bases and qualities of the first and
# of the second, each as six bytes.
group() { # FILE FIRST SECOND
    core='0 0 0 0 9 0 0 0 2 3C 49 12 1 0'
    rest='4 0 0 0 0 0 0 0 9 0 0 0 4 0 0 0 61 0 40 0 0 0'
    { bytes "2C 0 0 0 $core 41 0 $rest $2"; bytes "2C 0 0 0 $core 81 0 $rest $3"; } >"$work/$1"
}

# One run of the step (Consensus for both): reads a set, writes the next, prints the program's line.
step() { # FROM TO
    { printf 00; cat "$work/$1"; } | "$PROGRAM" >"$work/out"
    line=$(LC_ALL=C head -n 1 "$work/out" | tr -d '\0')
    tail -c +$((${#line} + 2)) "$work/out" >"$work/$2"
    printf '%s' "$line"
}

# Bases and qualities of both reads of a set.
show() { # FILE
    for mate in 0 1; do
        od -An -v -tu1 -j $((48 * mate + 42)) -N 6 "$work/$1" | {
            read -r b1 b2 q1 q2 q3 q4
            printf '   '
            for base in $((b1 / 16)),"$q1" $((b1 % 16)),"$q2" $((b2 / 16)),"$q3" $((b2 % 16)),"$q4"; do
                letter=$(printf '=ACMGRSVTWYHKDBN' | cut -c $((${base%,*} + 1)))
                printf '  %s %2d' "$letter" "${base#*,}"
            done
        }
    done
    echo
}

# A set with a raw trailer behind it: Consensus for both, 2 records, 96 bytes.
filed() { # FROM TO
    { cat "$work/$1"; bytes '0 0 0 0 0 0 2 0 0 0'; head -c 32 /dev/zero; bytes '60 0 0 0 0 0 0 0'; } >"$work/$2"
}

# One run on a filed group: as `step`.
filed_step() { # FROM TO
    "$PROGRAM_FILED" <"$work/$1" >"$work/out"
    line=$(LC_ALL=C head -n 1 "$work/out" | tr -d '\0')
    tail -c +$((${#line} + 2)) "$work/out" >"$work/$2"
    printf '%s' "$line"
}

compare() { # FILE FILE WORDS
    if cmp -s "$work/$1" "$work/$2"; then echo "$3: the same, byte for byte"; else echo "$3: different"; fi
}

once_more() { # FROM TO, and the last quality of each
    step "$1" next >"$work/line"
    compare next "$2" "  the set with $3, run once more, against the set with $4"
}
of_raw() { # TO, and its last quality
    compare next "$1" "  the raw set, run once, against the set with $2"
}

tell() {
    echo 'The incident: the step run on its own output'
    echo '                first read                 second read                the program says'
    group raw '12 81 C 1E 1E 14' '12 42 C A 14 14'
    printf 'raw        '; show raw | tr -d '\n'; echo
    from=raw
    for to in one two three four; do
        line=$(step $from $to)
        printf '%-11s' "$to run$([ $to = one ] || printf s)"; show $to | tr -d '\n'; echo "    $line"
        from=$to
    done
    echo
    echo 'From the three sets alone: their order'
    once_more one two 24 48
    once_more two three 48 93
    once_more one three 24 93
    once_more three two 93 48
    echo
    echo 'With the raw set: which one had a single run'
    step raw next >"$work/line"
    of_raw one 24
    of_raw two 48
    of_raw three 93
    echo
    echo 'What the bytes cannot tell: a 24 from one run, and a 24 from two'
    group twelve '11 11 C C C C' '11 11 C C C C'
    group six '11 11 6 6 6 6' '11 11 6 6 6 6'
    step twelve twelve_once >"$work/line"
    step six six_once >"$work/line"
    step six_once six_twice >"$work/line"
    compare twelve_once six_twice '  12 and 12, run once, against 6 and 6, run twice'
    echo
    echo 'The same job, filed with a trailer and sent again'
    filed raw raw_filed
    echo "  the raw set, filed, run once: $(filed_step raw_filed one_filed)"
    echo "  what came out, run again: $(filed_step one_filed again)"
    head -c 96 "$work/one_filed" >"$work/records"
    compare records one '  its records against the set with 24'
    head -c 48 "$work/one_filed" >"$work/torn"
    echo "  what came out, cut off behind its first record, run again: $(filed_step torn again)"
}

tell | tee "$work/told"
[ "${1:-}" = --check ] || exit 0
page=$root/docs/WHICH-SET-COUNTS.md
# the page spreads the same lines over its sections
awk '/^```/ { inside = /^```text$/; next } inside' "$page" >"$work/page"
sed '/^$/d' "$work/told" >"$work/lines"
if cmp -s "$work/lines" "$work/page"; then
    echo "WHICH-SET-COUNTS.md shows what the program does"
else
    echo "WHICH-SET-COUNTS.md shows something else:"
    diff "$work/page" "$work/lines"
    exit 1
fi

#!/bin/sh
# Runs every box of docs/REFUSALS.md and compares: pairs, the reasons of pairs and filed groups through the
# exported calls, inputs through the programs.
#   tests/refusals.sh [PAGE]
set -eu
. "$(dirname "$0")/../scripts/settings.sh"
need_archive
need_program
need_program_filed
page=${1:-$root/docs/REFUSALS.md}
try=$root/target/hosts/try
compile_c "$root/hosts/c/try.c" "$try"

ran=0 left=0 bad=0
plain() { "$try" bytes "$1" | od -An -v -tx1 | tr -d ' \n' | tr a-f A-F; }
verdict() { # EXPECTED GOT
    ran=$((ran + 1))
    [ "$1" = "$2" ] && return
    bad=$((bad + 1))
    printf 'in the box under "%s"\n expected: %s\n got:      %s\n' "$title" "$1" "$2"
}
start() {
    kind='' agreement='' disagreement='' cap='' out_len='' counts='' first='' second='' group='' input='' answer='' output=''
    first_after='' second_after='' out_after='' counts_after=''
}
run_pair() {
    want="answer $answer "
    [ -z "$first_after" ] || want="${want}first $(plain "$first_after") second $(plain "$second_after") counts $(plain "$counts_after") "
    verdict "$want" "$("$try" pair "$agreement" "$disagreement" "$cap" "$counts" "$first" "$second" | tr '\n' ' ')"
}
run_reason() { # the call on the pair has to say the same, less the reason and the operation's index
    verdict "answer $answer" "$("$try" reason "$first" "$second")"
    case $answer in 0) of_pair=1 ;; [1-5]) of_pair=0 ;; *) of_pair=$((answer % 10000)) ;; esac
    verdict "answer $of_pair" "$("$try" pair 0 0 93 '00*32' "$first" "$second" | head -n 1)"
}
run_filed() { # of a corrected group, the box may leave out what becomes of the output and of the counts
    want="answer $answer " no_out='' no_counts=''
    [ -z "$out_after" ] || want="${want}out $(plain "$out_after") "
    [ -z "$counts_after" ] || want="${want}counts $(plain "$counts_after") "
    [ -n "$out_after" ] || [ "$answer" != 0 ] || no_out=/^out/d
    [ -n "$counts_after" ] || [ "$answer" != 0 ] || no_counts=/^counts/d
    verdict "$want" "$("$try" filed "$out_len" "$counts" "$group" | sed -e "$no_out" -e "$no_counts" | tr '\n' ' ')"
}
run_program() { # PROGRAM
    verdict "$output" "$("$try" bytes "$input" | "$1" | tr -d '\0' | LC_ALL=C head -n 1)"
    case $output in no* | done*) # that line and nothing more
        verdict $((${#output} + 1)) $(($("$try" bytes "$input" | "$1" | wc -c))) ;;
    esac
}
finish() { # the box is read: run it
    case $kind in
    pair) run_pair ;;
    reason) run_reason ;;
    filed) run_filed ;;
    program) run_program "$PROGRAM" ;;
    program-filed) run_program "$PROGRAM_FILED" ;;
    *)
        left=$((left + 1))
        echo "run by the program judged_cases, as nothing exported gives it: $title"
        ;;
    esac
}

inside=no title=''
start
while IFS= read -r line; do
    case $inside,$line in
    no,'### '*) title=${line#'### '} ;;
    no,'```case') inside=yes; start ;;
    yes,'```') inside=no; finish ;;
    yes,'pair '*' cap '*' counts '*)
        kind=pair counts=${line#* counts } ways=${line#pair } cap=${line#* cap }
        cap=${cap%% counts *} ways=${ways%% cap *} agreement=${ways%% *} disagreement=${ways#* } ;;
    yes,reason) kind=reason ;;
    yes,'filed '*) kind=filed; counts=${line#*counts }; out_len=${line#filed }; out_len=${out_len%% counts*} ;;
    yes,'group '*) group=${line#group } ;;
    yes,'program '*) kind=program; input=${line#program } ;;
    yes,'program-filed '*) kind='program-filed'; input=${line#program-filed } ;;
    yes,'output '*) output=${line#output } ;;
    yes,'answer '*) answer=${line#answer } ;;
    yes,'first becomes '*) first_after=${line#first becomes } ;;
    yes,'second becomes '*) second_after=${line#second becomes } ;;
    yes,'out becomes '*) out_after=${line#out becomes } ;;
    yes,'counts become '*) counts_after=${line#counts become } ;;
    yes,'first '*) first=${line#first } ;;
    yes,'second '*) second=${line#second } ;;
    yes,'merge '*) ;;
    yes,*) echo "a line that no box has: $line"; bad=$((bad + 1)) ;;
    esac
done <"$page"
echo "boxes of $(basename "$page"): $ran compared, $bad differ, $left not run here"
[ "$bad" = 0 ] && [ "$ran" -gt 0 ]

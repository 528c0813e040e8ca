# Plans: replies, pieces, pipes, counts; trying a book; comparing cards.

pier compile ramp.book -o ramp.card >/dev/null
check "a card through a pipe" "$(cksum <ramp.card)" "$(pier compile - -o - <ramp.book 2>err | cksum)"
check "its envelope on standard error" "letters 5 (c d l u w)" "$(head -n 1 err)"
check "a plan without a line end" "allowed" "$(printf du | pier judge ramp.card)"
check "an empty line is the empty plan" "allowed" "$(printf '\n' | pier judge ramp.card)"
check "the empty plan is shown" "(empty)	allowed" "$(printf '\n' | pier judge ramp.card --explain)"
check "no plan" "" "$(pier judge ramp.card </dev/null 2>&1)"
coproc pier judge ramp.card
echo du >&"${COPROC[1]}"
if read -r -t 20 reply <&"${COPROC[0]}"; then check "a reply before the next plan" allowed "$reply"; else wrong "no reply"; fi
exec {COPROC[1]}>&-
wait

# Many plans: a reader that goes away, progress, counts, pieces.
yes du | head -n 200000 >many.plans
(pier judge ramp.card many.plans; echo "status $?" >closed) 2>err | head -n 1 >first
check "the first of many" allowed "$(cat first)"
check "a closed pipe ends quietly" "status 0" "$(cat closed)"
check "without a word" "" "$(cat err)"
(pier show ramp.card; echo "status $?" >closed) 2>err | true
check "show in a closed pipe" "" "$(cat err)"
pier judge --progress ramp.card many.plans 2>err | sort | uniq -c | sed 's/^ *//' >counted
check "many replies" "200000 allowed" "$(cat counted)"
check "how far it is" "200000 plans judged, 100 %" "$(tr '\r' '\n' <err | sed -n '/judged/h; ${x;p}')"
check "their count" "200000 plans: 200000 allowed, 0 unfinished, 0 hopeless, 0 refused" "$(tail -n 1 err)"
pier judge ramp.card many.plans >/dev/null 2>err
check "no progress unasked" 1 "$(wc -l <err)"
for number in 9 10; do
    head -n $number many.plans | pier judge ramp.card >/dev/null 2>err
    check "$number plans are counted from 10 on" $((number / 10)) "$(grep -c "^$number plans:" err)"
done
long=$(yes cwcwcw | head -n 900000 | tr -d '\n')
printf 'du\nd%su\nd' "$long" | pier judge ramp.card >replies
check "a plan longer than a piece" "allowed allowed unfinished 1" "$(tr '\n' ' ' <replies | sed 's/ $//')"
yes '' | head -n 600000 | pier judge ramp.card 2>/dev/null | sort | uniq -c | sed 's/^ *//' >counted
check "more plans than a call takes" "600000 allowed" "$(cat counted)"

# The status, and --strict.
printf 'du\nd\n' >unfinished.plans
status 0 pier judge ramp.card unfinished.plans
status 1 pier judge --strict ramp.card unfinished.plans
status 1 pier try --strict ramp.book unfinished.plans
head -n 3 many.plans >fine.plans
status 0 pier judge --strict ramp.card fine.plans
printf '\357\273\277du\n' | pier judge ramp.card >out 2>err
has "a byte-order mark before the plans" "a byte-order mark at the beginning" "$(cat err)"

# A million short plans on a large card: tested once a piece, not once a plan.
if [ -z "$option" ]; then
    letters=abcdefghijklmnopqrstuvwxyz
    row=$letters${letters:13}${letters:0:13}$letters$letters$letters
    printf ':%s\n>%s\n' $letters ${row:0:110} >row.book
    pier compile row.book -o board.bin >out
    check "the large card" "states  111" "$(sed -n 2p out)"
    yes "$(printf 'abcdefghij\nklmnopqrst\nuvwxyzabcd\n')" | head -n 1000000 >million.plans
    TIMEFORMAT=%U
    { time pier judge board.bin million.plans >replies 2>err; } 2>seconds
    check "a million replies" "1000000 plans: 1000000 allowed, 0 unfinished, 0 hopeless, 0 refused" "$(tail -n 1 err)"
    check "in less than 5 seconds" yes "$(awk '{ print ($1 < 5) ? "yes" : $1 }' seconds)"
    if [ -x "$top/target/bin/judge" ]; then
        check "as the judging program" "$("$top/target/bin/judge" <million.plans | cksum)" "$(cksum <replies)"
    fi
fi

# Trying a book: as compiling and judging.
for book in *.book; do
    name=${book%.book}
    [ -e "$name.plans" ] || continue
    pier compile "$book" -o "$name.card" >/dev/null 2>&1
    check "pier try $book" "$(pier judge "$name.card" "$name.plans" --explain 2>&1)" \
        "$(pier try "$book" "$name.plans" --explain 2>&1 | grep -v ': note: ')"
done
check "no card is left" "" "$(mkdir empty && cd empty && pier try ../ramp.book ../ramp.plans >/dev/null 2>&1; ls)"

# Comparing.
sed 's/^>v .*/>v/' curfew.book >strict.book
pier compile strict.book -o strict.card >/dev/null
status 1 pier compare curfew.card strict.card curfew.plans
check "changed replies" "$(paste curfew.plans <(pier judge curfew.card curfew.plans 2>/dev/null) <(pier judge strict.card curfew.plans 2>/dev/null) \
    | awk -F '\t' '$2 != $3 { print ($1 == "" ? "(empty)" : $1) "\t" $2 " -> " $3 }')" "$(grep -- ' -> ' out)"
check "their number" "5 of 13 plans changed their reply" "$(tail -n 1 out)"
printf 'dn\n' >quiet.plans
status 0 pier compare curfew.card strict.card quiet.plans
check "no changed reply" "0 of 1 plan changed their reply" "$(tail -n 1 out)"
status 1 pier compare curfew.card strict.card
has "without plans" "some plan is judged differently" "$(cat out)"
status 1 pier compare curfew.card ramp.card
check "letters that came and went" "different: letters that came: c l u w; letters that went: e h n v" "$(tail -n 1 out)"

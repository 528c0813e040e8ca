# The shortest stretch: replies, what explains them, refusals, many plans, long plans.

pier compile ramp.book -o ramp.card >/dev/null
printf ':ab\n>aaaa\n' | pier compile - -o four.card >/dev/null
printf '\014\0\2\0\016\0\1\0\017\0\2\0ab\2\0\0' >nothing.card
printf '\014\0\2\0\016\0\1\0\017\0\2\0ab\1\0\0' >everything.card

# A card, a plan (- is the empty one), the plan as --explain shows it, the reply.
while read -r card plan shown reply; do
    plan=${plan#-}
    check "the stretch of $card, $plan" "$reply" "$(echo "$plan" | pier stretch $card.card 2>/dev/null)"
    check "explained, $card, $plan" "$shown	$reply" "$(echo "$plan" | pier stretch $card.card - --explain 2>/dev/null)"
done <<'TABLE'
ramp - (empty) none
ramp d d none
ramp du du none
ramp cu cu none
ramp wcl wcl none
ramp cd [cd] stretch 0 2
ramp dlcu d[lc]u stretch 1 2
ramp cwlcu cw[lc]u stretch 2 2
ramp cdlc [cd]lc stretch 0 2
ramp ludcudd ludcu[dd] stretch 5 2
ramp dxu d?xu refused 27
ramp lcx lc?x refused 27
ramp x[c] ?x[c] refused 27
four aaabaaa aaabaaa none
four aaaa [aaaa] stretch 0 4
four baaaaa b[aaaa]a stretch 1 4
everything abba abba none
everything - (empty) none
nothing - [](empty) stretch 0 0
nothing abba []abba stretch 0 0
nothing abc ab?c refused 27
TABLE
check "a plan without a line end" "stretch 0 2" "$(printf dd | pier stretch ramp.card)"
check "no plan" "" "$(pier stretch ramp.card </dev/null 2>&1)"
printf 'dlcu\ndu\ndxu\n' >three.plans
check "from a file as from standard input" "$(pier stretch ramp.card three.plans 2>&1)" "$(pier stretch ramp.card <three.plans 2>&1)"
check "the card from standard input" "$(pier stretch ramp.card three.plans 2>&1)" "$(pier stretch - three.plans <ramp.card 2>&1)"

# The status, and --strict.
status 1 pier stretch ramp.card three.plans
check "the refused plan is told" "pier: 1 of 3 plans refused; the first is plan 3: x after 1 letter is not on the card" "$(cat err)"
printf 'dlcu\ndu\n' >two.plans
status 0 pier stretch ramp.card two.plans
status 1 pier stretch --strict ramp.card two.plans
printf 'cu\ndu\n' >none.plans
status 0 pier stretch --strict ramp.card none.plans
status 2 pier stretch - -
status 2 pier stretch ramp.card missing.plans

# A card that does not load: as pier judge tells it, once, and no reply.
head -c 20 ramp.card >short.card
(cat ramp.card; printf x) >long.card
printf '\014\0\1\0\015\0\1\0\016\0\1\0A\1\0' >22.card
printf '\014\0\1\0\015\0\1\0\016\0\1\0a\1\1' >23.card
printf '\014\0\1\0\015\0\2\0\017\0\2\0a\1\2\0\1' >24.card
printf '\014\0\1\0\015\0\1\0\016\0\1\0a\0\0' >25.card
printf '\014\0\1\0\015\0\2\0\017\0\2\0a\1\1\1\0' >26.card
for card in short.card long.card 22.card 23.card 24.card 25.card 26.card ramp.book; do
    pier judge $card three.plans 2>judged >/dev/null
    status 1 pier stretch $card three.plans
    check "$card is told as by judge" "$(cat judged)" "$(cat err)"
    check "without a reply" "" "$(cat out)"
done
has "the number" "26.card: refused 26 (twins)" "$(pier stretch 26.card three.plans 2>&1)"

# Each stretch of the samples is bad by itself, and good without its first or its last letter.
# What judge --explain says of it is the same; a plan that is not hopeless has none.
for book in *.book; do
    name=${book%.book}
    pier compile "$book" -o "$name.card" >/dev/null 2>&1
    pier stretch "$name.card" "$name.plans" >found 2>/dev/null
    paste -d ' ' "$name.plans" found | while read -r plan word start length; do
        [ "$word" = stretch ] || continue
        part=${plan:start:length}
        printf '%s\n%s\n%s\n' "$part" "${part#?}" "${part%?}"
    done >parts
    pier stretch "$name.card" parts 2>/dev/null >cut
    sed -n 's/^stretch [0-9]*/stretch 0/p' found | sed 'a none\nnone' >expected
    check "the stretches of $name cut out" "$(cat expected)" "$(cat cut)"
    pier judge "$name.card" "$name.plans" --explain 2>/dev/null | cut -f 2- \
        | sed -E 's/^(allowed|unfinished [0-9]+\t.*)$/none/; s/^hopeless [0-9]+\t//; s/^no stretch: .*/none/' >explained
    check "judge --explain on $name" "$(cat found)" "$(cat explained)"
    check "its replies" "$(pier judge "$name.card" "$name.plans" 2>/dev/null)" \
        "$(pier judge "$name.card" "$name.plans" --explain 2>/dev/null | cut -f 2)"
done
check "a hopeless plan with a stretch" "c!wlcu	hopeless 1	stretch 2 2" "$(echo cwlcu | pier judge ramp.card --explain)"
check "a hopeless plan without one" "c!u	hopeless 1	no stretch: could stand later in a day" "$(echo cu | pier judge ramp.card --explain)"
check "the same of a book" "c!u	hopeless 1	no stretch: could stand later in a day" "$(echo cu | pier try ramp.book --explain)"
check "where nothing is allowed" "!(empty)	hopeless 0	stretch 0 0" "$(echo | pier judge nothing.card --explain)"

# One letter over and over.
letters=$(printf 'a%.0s' $(seq 60))
check "one letter, 60 times" "stretch 0 4" "$(echo $letters | pier stretch four.card)"
check "in brackets" "[aaaa]${letters:4}	stretch 0 4" "$(echo $letters | pier stretch four.card --explain)"
check "another, 60 times" none "$(echo ${letters//a/b} | pier stretch four.card)"
check "where all is allowed" none "$(echo $letters | pier stretch everything.card)"

# Many plans: in order, before the next one comes, counted; a reader that goes away.
coproc pier stretch ramp.card
echo dlcu >&"${COPROC[1]}"
if read -r -t 20 reply <&"${COPROC[0]}"; then check "a reply before the next plan" "stretch 1 2" "$reply"; else wrong "no reply"; fi
exec {COPROC[1]}>&-
wait
for number in 9 10; do
    yes dlcu | head -n $number | pier stretch ramp.card >/dev/null 2>err
    check "$number plans are counted from 10 on" $((number / 10)) "$(grep -c "^$number plans:" err)"
done
yes "$(printf 'dlcu\ndu\nddu\n')" | head -n 30000 >many.plans
pier stretch --progress ramp.card many.plans 2>err >out
check "many replies, in order" "$(yes "$(printf 'stretch 1 2\nnone\nstretch 0 2\n')" | head -n 30000 | cksum)" "$(cksum <out)"
check "how far it is" "30000 plans judged, 100 %" "$(tr '\r' '\n' <err | sed -n '/judged/h; ${x;p}')"
check "their count" "30000 plans: 10000 none, 20000 stretch, 0 refused" "$(tail -n 1 err)"
(pier stretch ramp.card many.plans; echo "status $?" >closed) 2>err | head -n 1 >first
check "the first of many" "stretch 1 2" "$(cat first)"
check "a closed pipe ends quietly" "status 0" "$(cat closed)"
check "without a word" "" "$(cat err)"

# Long plans; the second program is not made for them.
if [ -z "$option" ]; then
    long=$(yes cwcwcwlw | head -n 500000 | tr -d '\n')
    printf 'd%sdu\nd%su\n%slc%slc\n' $long $long $long $long | pier stretch ramp.card >replies
    check "plans longer than a piece" "stretch 3999999 3,none,stretch 4000000 2," "$(tr '\n' , <replies)"
    yes a | head -n 1000000 | tr -d '\n' | pier stretch four.card >replies
    check "one letter, a million times" "stretch 0 4" "$(cat replies)"
fi

# How much is still owed: replies, tables, pictures, pages, changed replies.

pier compile ramp.book -o ramp.card >/dev/null
pier compile night.book -o night.card >/dev/null
printf ':ab\n>a / .* _ .*b.*\n' | pier compile - -o one.card >/dev/null
printf ':ab\n>a / .* _ .*b.*b.*\n' | pier compile - -o two.card >/dev/null
printf ':abc\n>a / .* _ .*(bc|cb).*\n' | pier compile - -o either.card >/dev/null
row=$(printf 'b%.0s' $(seq 110))
printf ':ab\n>a / .* _ %s.*\n' "$row" | pier compile - -o row.card >/dev/null

# A card, a plan, how many letters are owed.
while read -r card plan owed; do
    letters="$owed more letters"
    [ "$owed" -gt 1 ] || letters="1 more letter"
    check "the reply of $card to $plan" "unfinished $owed" "$(echo "$plan" | pier judge $card.card)"
    check "explained, $card, $plan" "$plan	unfinished $owed	at least $letters" "$(echo "$plan" | pier judge $card.card --explain)"
done <<TABLE
one a 1
one abba 1
two a 2
two ab 1
two aba 2
either a 2
either ab 1
either acc 1
night a 3
night adc 1
night adcd 2
night nnadclna 3
row a 110
row abbbbbbbbbb 100
row babbbbbbbbbbb 99
TABLE
check "the same of a book" "adcd	unfinished 2	at least 2 more letters" "$(echo adcd | pier try night.book --explain)"
check "without --explain" "unfinished 2" "$(echo adcd | pier try night.book)"
for length in $(seq 0 110); do echo "a${row:0:length}"; done >paid.plans
check "each letter pays one" "$(for owed in $(seq 110 -1 1); do echo "unfinished $owed"; done; echo allowed)" "$(pier judge row.card paid.plans 2>err)"
check "counted together" "111 plans: 1 allowed, 110 unfinished, 0 hopeless, 0 refused" "$(cat err)"
yes a | head -n 300000 | pier judge night.card 2>err | uniq -c | sed 's/^ *//' >counted
check "many replies" "300000 unfinished 3" "$(cat counted)"

# In the samples a continuation of so many letters is allowed, and none that is shorter.
owing=0
for book in *.book; do
    name=${book%.book}
    pier compile "$book" -o "$name.card" >/dev/null 2>&1
    letters=$(sed -n '1s/^://p' "$book" | sed 's/./& /g')
    paste "$name.plans" <(pier judge "$name.card" "$name.plans" 2>/dev/null) | grep unfinished >begun.plans
    while IFS=$'\t' read -r plan reply; do
        owing=$((owing + 1))
        echo "$plan" >begun
        : >tried
        for _ in $(seq "${reply#unfinished }"); do
            while read -r plans; do for letter in $letters; do echo "$plans$letter"; done; done <begun >longer
            mv longer begun
            cat begun >>tried
        done
        check "letters of the shortest behind $plan of $name" "$((${#plan} + ${reply#unfinished }))" \
            "$(paste tried <(pier judge "$name.card" tried 2>/dev/null) | awk '$2 == "allowed" { print length($1); exit }')"
    done <begun.plans
done
check "unfinished plans of the samples" yes "$([ "$owing" -ge 14 ] && echo yes || echo "$owing")"

# The numbers of a table are those of its moves: one more than the least of the next states.
distances() {
    awk -v m="$1" 'NR > 5 {
            n = NR - 5
            for (c = 1; c <= m; c++) next_state[n, c] = $(NF - m + c) + 1
            far[n] = $2 == "may" ? 0 : 1000
            shown[n] = $2 == "on" ? $5 : far[n]
        }
        END {
            for (round = 1; round <= n; round++)
                for (p = 1; p <= n; p++) for (c = 1; c <= m; c++)
                    if (far[next_state[p, c]] + 1 < far[p]) far[p] = far[next_state[p, c]] + 1
            for (p = 1; p <= n; p++) if (far[p] != shown[p]) print p - 1, shown[p], far[p]
            print n
        }'
}
for card in *.card; do
    pier show "$card" >shown
    check "the numbers of $card" "$(sed -n 's/^states *//p' shown)" "$(distances "$(sed -n 's/^letters \([0-9]*\).*/\1/p' shown)" <shown)"
done
check "shown" "state mark           a   c   d   l   n
    0 may end        1   2   2   2   0
    1 on the way 3   2   2   3   2   2
    2 hopeless       2   2   2   2   2
    3 on the way 2   2   4   3   2   2
    4 on the way 1   2   4   3   0   2" "$(pier show night.card | sed 1,4d)"
check "a wide number" "state mark             a   b
    0 may end          1   0
    1 on the way 110   2   3" "$(pier show row.card | sed -n 5,7p)"
pier compile hazard.book -o hazard.card >/dev/null
check "a table without a number" "state mark         g   p   w   x" "$(pier show hazard.card | sed -n 5p)"

pier draw night.card -o night.dot >/dev/null
check "drawn for Graphviz" '  0 [shape=doublecircle];
  1 [shape=circle, label="1\n+3"];
  2 [shape=box, style=filled, fillcolor=grey, label="2 hopeless"];
  3 [shape=circle, label="3\n+2"];
  4 [shape=circle, label="4\n+1"];' "$(grep '^  [0-9] \[' night.dot)"
has "and said" "single ring: on the way, +K: K more letters at least; grey box: hopeless" "$(grep label= night.dot)"
check "not where there is none" 0 "$(pier draw hazard.card -o - | grep -c -F '+')"
pier draw night.card -o night.svg >/dev/null
check "drawn" "+3 +2 +1" "$(grep -o '>+[0-9]*<' night.svg | tr -d '><' | tr '\n' ' ' | sed 's/ $//')"
has "with words" "<title>state 3: on the way 2</title>" "$(cat night.svg)"
pier page night.card -o night.html >/dev/null
has "on the page" "owed: [0, 3, 0, 2, 1] }" "$(cat night.html)"
has "and in its table" '<td class="mark">on the way 3</td>' "$(cat night.html)"

# Another number is another reply.
printf 'a\nab\nabb\n' >three.plans
status 1 pier compare one.card two.card three.plans
check "changed numbers" "a	unfinished 1 -> unfinished 2
ab	allowed -> unfinished 1
2 of 3 plans changed their reply" "$(sed 1,3d out)"

# The judging program, where it is made of these sources.
program=$top/target/bin/judge
if [ -z "$option" ] && [ -x "$program" ] && [ -z "$(find "$top/crates" -type f -newer "$program" -print -quit)" ]; then
    for name in night ramp; do
        cp $name.card board.bin
        check "as the judging program, $name" "$("$program" <$name.plans)" "$(pier judge $name.card $name.plans 2>/dev/null)"
    done
else
    left_out "the replies of the judging program: target/bin/judge is not there, or older than a source"
fi

# Islands without rules: books without a rule, the empty book, cards without letters in every command.

mounted="boards mounted before there were cards without letters refuse it by 21"
only="the card has no letters: only the empty plan can be judged"
bytes() { od -An -v -tx1 -w99 "$1" | sed 's/^ //'; }

# A book without a rule: its notes, its peak, and the card that allows everything.
printf ':ab\n>b / .* _ .*\n' | pier compile - -o all.card >/dev/null 2>&1
check "everything over a and b" "0c 00 02 00 0e 00 01 00 0f 00 02 00 61 62 01 00 00" "$(bytes all.card)"
while read -r peak definitions; do
    printf ":ab\n$definitions" >bare.book
    status 0 pier compile bare.book -o bare.card
    check "its envelope: $definitions" "letters 2 (a b)
states  1
bytes   17
peak    $peak of 512" "$(cat out)"
    check "its note: $definitions" "bare.book: note: this book has no rule (a line that begins with >, < or ^): it allows every plan" "$(cat err)"
    check "its card: $definitions" "$(bytes all.card)" "$(bytes bare.card)"
done <<'TABLE'
0
3 =A!@\n
4 =A.*\n
0 =A(a)\n
5 =Aa+\n
5 =A(a)\n=BA+\n=C@\n
TABLE
check "through a pipe" "$(bytes all.card)" "$(printf ':ab\n' | pier compile - -o - 2>/dev/null | bytes -)"
check "all 26 letters" "letters 26 (a b c d e f g h i j k l m n o p q r s t u v w x y z)" \
    "$(printf ':abcdefghijklmnopqrstuvwxyz\n' | pier compile - -o x.card 2>/dev/null | head -n 1)"
refused "a definition with a stranger" "refused 6 (stranger), line 2" ':ab\n=A c\n'
refused "a name twice" "refused 7 (taken), line 3" ':ab\n=A a\n=A b\n'
refused "a definition too large" "refused 9 (oversize), line 2" ":a\n=A $(printf 'a%.0s' $(seq 119))\n"
printf 'ab\n\nbbbb\nabc\n' >four.plans
status 1 pier try bare.book four.plans --explain
check "trying it" "ab	allowed
(empty)	allowed
bbbb	allowed
ab?c	refused 27" "$(cat out)"
check "with the note first" "bare.book: note: this book has no rule (a line that begins with >, < or ^): it allows every plan
pier: 1 of 4 plans refused; the first is plan 4: c after 2 letters is not on the card" "$(cat err)"

# The empty book.
: >empty.book
status 0 pier compile empty.book -o empty.card
check "its envelope" "letters 0
states  1
bytes   13
peak    0 of 512" "$(cat out)"
check "its note" "empty.book: note: this book is empty: its card has no letters, and only the empty plan can be judged; $mounted" "$(cat err)"
check "its card" "0c 00 00 00 0c 00 01 00 0d 00 00 00 01" "$(bytes empty.card)"
status 0 pier compile - -o piped.card
check "no input is an empty book" "$(bytes empty.card)" "$(bytes piped.card)"
check "on standard output" "$(bytes empty.card)" "$(pier compile empty.book -o - 2>/dev/null | bytes -)"
while read -r text words; do
    refused "the text $text" "refused 5 (spoiled line), line 1" "$text"
    has "what to write for $text" "$words" "$(cat err)"
    check "and no card" no "$([ -e refused.card ] && echo yes || echo no)"
done <<'TABLE'
\n line 1 is empty: write : and the port's letters, as in :ab; a book without letters is a file of no bytes
\n\n line 1 is empty
\n:ab\n line 1 is empty
: the last line lacks its line end
:\n line 1 names no letter: write 1 to 26 of them behind the :, as in :ab; a book without letters is a file of no bytes
TABLE

# Cards without letters: one allows the empty plan, one nothing.
printf '\014\0\0\0\014\0\1\0\015\0\0\0\2' >never.card
status 0 pier check empty.card
check "it loads" "empty.card: loads, with no letters and 1 state" "$(cat out)"
check "here, and not everywhere" "empty.card: note: $mounted" "$(cat err)"
status 0 pier check never.card
check "its like loads" "never.card: loads, with no letters and 1 state
never.card: note: $mounted" "$(cat out err)"
status 0 pier check all.card
check "no note on a card with letters" "all.card: loads, with 2 letters and 1 state" "$(cat out err)"
while read -r number card; do
    printf "$card" >wrong.card
    status 1 pier check wrong.card
    has "$number of $card" "wrong.card: refused $number (" "$(cat err)"
    for command in judge stretch; do
        status 1 pier $command wrong.card four.plans
        has "$command of $card" "wrong.card: refused $number (" "$(cat err)"
    done
done <<'TABLE'
21 \014\0\0\0\014\0\1\0\015\0\0\0
21 \014\0\0\0\014\0\1\0\015\0\0\0\1\0
21 \014\0\0\0\014\0\0\0\014\0\0\0
21 \014\0\0\0\014\0\1\0\015\0\1\0\1\0
24 \014\0\0\0\014\0\2\0\016\0\0\0\1\2
24 \014\0\0\0\014\0\2\0\016\0\0\0\1\1
25 \014\0\0\0\014\0\1\0\015\0\0\0\0
25 \014\0\0\0\014\0\1\0\015\0\0\0\3
TABLE

status 0 pier show empty.card
check "shown" "letters 0
states  1
bytes   13

state mark
    0 may end" "$(cat out)"
status 0 pier show never.card
check "its like shown" "    0 hopeless" "$(tail -n 1 out)"
status 0 pier draw empty.card -o -
check "drawn for Graphviz" 'digraph card {
  rankdir=LR;
  label="empty.card. Double ring: the plan may end; single ring: on the way";
  node [fontname="sans-serif"];
  edge [fontname="sans-serif"];
  start [shape=point, style=invis];
  start -> 0;
  0 [shape=doublecircle];
}' "$(cat out)"
status 0 pier draw never.card -o never.dot --all
has "its like" '  0 [shape=box, style=filled, fillcolor=grey, label="0 hopeless"];' "$(cat never.dot)"
for card in empty never; do
    status 0 pier draw $card.card -o $card.svg
    check "$card.svg: one state, one arrow, the start's" "1 1" "$(grep -c 'id="state' $card.svg) $(grep -c 'class="arrow"' $card.svg)"
    check "$card.svg has whole numbers" 0 "$(grep -c -i -E 'nan|inf"' $card.svg)"
    status 0 pier page $card.card -o $card.html
    has "$card.html: its envelope" "<dt>letters</dt><dd>0</dd><dt>states</dt><dd>1</dd><dt>bytes</dt><dd>13</dd>" "$(cat $card.html)"
    has "$card.html: what to type" "nothing: this card has no letters, and judges the empty plan only" "$(cat $card.html)"
    has "$card.html: below the picture" "The card has no letters, so there are no moves." "$(cat $card.html)"
    check "$card.html: no word of arrows with letters" 0 "$(grep -c 'such as a-c' $card.html)"
done

# Judging and stretches: a card, a plan (- is the empty one), both as --explain shows them.
while read -r card plan judged found; do
    plan=${plan#-}
    expected=0
    [ "$plan" = "" ] || expected=1
    check "judging $plan by $card" "${judged//_/ }" "$(echo "$plan" | pier judge $card.card --explain 2>err | tr '\t' ' ')"
    echo "$plan" | pier judge $card.card >out 2>err
    check "status of judging $plan by $card" $expected $?
    check "the reply alone" "$(echo "${judged//_/ }" | cut -d ' ' -f 2,3)" "$(cat out)"
    check "what is said of it" $expected "$(grep -c "$only" err)"
    check "the stretch of $plan by $card" "${found//_/ }" "$(echo "$plan" | pier stretch $card.card --explain 2>err | tr '\t' ' ')"
    echo "$plan" | pier stretch $card.card >out 2>err
    check "status of the stretch of $plan by $card" $expected $?
    check "what is said of it" $expected "$(grep -c "$only" err)"
done <<'TABLE'
empty - (empty)_allowed (empty)_none
empty a ?a_refused_27 ?a_refused_27
empty aa ?aa_refused_27 ?aa_refused_27
never - !(empty)_hopeless_0_stretch_0_0 [](empty)_stretch_0_0
never z ?z_refused_27 ?z_refused_27
TABLE
printf '\nab\n\n\r\n' >plans
status 1 pier judge empty.card plans
check "a letter is told" "pier: 2 of 4 plans refused; the first is plan 2: a at the beginning is not on the card; $only" "$(cat err)"
status 1 pier stretch empty.card plans
check "also by stretch" "pier: 2 of 4 plans refused; the first is plan 2: a at the beginning is not on the card; $only" "$(cat err)"
printf '\r\n' | pier judge empty.card >out 2>err
check "an empty line of Windows" "pier: 1 of 1 plan refused; the first is plan 1: byte 0x0D at the beginning: the file has the line ends of Windows; $only" "$(cat err)"
yes '' | head -n 12 >twelve.plans
status 0 pier judge --strict empty.card twelve.plans
check "many empty plans" "12 plans: 12 allowed, 0 unfinished, 0 hopeless, 0 refused" "$(cat err)"
status 1 pier judge --strict never.card twelve.plans
status 1 pier stretch --strict never.card twelve.plans
status 0 pier stretch --strict empty.card twelve.plans
status 1 pier try empty.book plans
check "trying the empty book" "allowed refused 27 allowed refused 27" "$(tr '\n' ' ' <out | sed 's/ $//')"
check "with the note first" "empty.book: note: this book is empty" "$(head -c 36 err)"
status 0 pier try empty.book
check "no plan" "" "$(cat out)"

# Comparing: the same, another mark, with and without letters.
status 0 pier compare empty.card piped.card
check "the same" "empty.card: no letters, 1 state, 13 bytes
piped.card: no letters, 1 state, 13 bytes
same: nothing changed, every plan gets the same reply" "$(cat out)"
status 1 pier compare empty.card never.card
check "another mark" "different: both have no letters, and the empty plan is judged differently" "$(tail -n 1 out)"
status 1 pier compare empty.card never.card plans
check "with plans" "(empty)	allowed -> hopeless 0
(empty)	allowed -> hopeless 0
2 of 4 plans changed their reply" "$(tail -n 3 out)"
status 1 pier compare empty.card all.card
check "letters came" "empty.card: no letters, 1 state, 13 bytes
all.card: 2 letters (a b), 1 state, 17 bytes
different: letters that came: a b; letters that went: none" "$(cat out)"
status 1 pier compare all.card empty.card plans
check "letters went" "different: letters that came: none; letters that went: a b
ab	allowed -> refused 27
1 of 4 plans changed its reply" "$(tail -n 3 out)"

# 10 is given no longer, and has no words.
check "no 10 in the guide's table" 0 "$(pier guide | grep -c -E '^\| 10 \||refused 10')"
check "nor in the help" "" "$(pier manual | grep -E 'no rule|refused 10')"
status 0 pier compile island.book -o island.card
status 0 pier compile islet.book -o islet.card
check "the samples' cards" "$(bytes empty.card)" "$(bytes islet.card)"

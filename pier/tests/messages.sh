# Messages: what a refused book or card is, and slips that compile.

refused "a byte-order mark" "a byte-order mark" '\357\273\277:ab\n>b\n'
refused "a tab" "a tab: write spaces" ':ab\n>b\t/ a _ .*\n'
refused "a tab in front" "begin with a space or a tab" ':ab\n\t>b\n'
refused "a long dash" "a long dash: write -" ':ab\n>.*\342\200\223a\n'
refused "a longer dash" "a long dash: write -" ':ab\n>.*\342\200\224a\n'
refused "a square bracket" "[ is no sign of the language: brackets are round" ':ab\n>[ab]\n'
refused "a curly bracket" "{ is no sign of the language: brackets are round" ':ab\n>a{2}\n'
refused "a digit behind a name" "a name is one capital letter and nothing more" ':ab\n=N1 ab\n>b\n'
refused "a digit" "a digit: events are the letters" ':ab\n>a2\n'
refused "a small name" "write =N" ':ab\n=n ab\n>b\n'
check "with an arrow at it" "  2 | =n ab
       ^" "$(sed -n 2,3p err)"

# The three kinds of rule.
refused "< without a context" "a rule with < needs a context: write / .* _ .* behind it" ':ab\n<b\n'
check "with an arrow at the end" "  2 | <b
        ^" "$(sed -n 2,3p err)"
refused "^ without a context" "a rule with ^ needs a context: write / @ _ @ behind it" ':ab\n^(ab)*\n'
refused "a stranger without a context" "refused 5 (spoiled line), line 2" ':ab\n<c\n'
refused "a stranger with one" "refused 6 (stranger), line 2" ':ab\n<c / a _ b\n'
refused "a stranger in a side" "c is not among the letters" ':ab\n^a / .*c _ @\n'
refused "a name that is not defined" "N is not defined on a line above" ':ab\n^N / @ _ @\n'
refused "half a context" "the last context lacks its _" ':ab\n^a / b\n'
refused "five contexts" "the fifth _" ':ab\n<b/a_a/b_b/a_b/b_a/@_@\n'
refused "five brackets" "the fifth open bracket" ':ab\n^(((((a)))))/@_@\n'
refused "no pattern" "something is missing before this sign" ':ab\n</ a _ b\n'
refused "< in a line" "this sign stands only at the beginning of a line" ':ab\n<a<b / a _ b\n'
refused "> in a line" "this sign stands only at the beginning of a line" ':ab\n<a / > _ b\n'
refused "^ in a line" "a repetition is written *, + or ?" ':ab\n>a^b\n'
refused "< in line 1" "line 1 holds only letters" ':a<b\n'
refused "a space in front" "may not begin with a space" ':ab\n <a / a _ b\n'
refused "another beginning" "begins with = (a definition), or >, < or ^ (a rule)" ':ab\n+a / a _ b\n'
while read -r words line; do
    refused "$line" "$words is written" ":ab\n$line\n"
done <<'TABLE'
=> b => .*a _ .*
=> => b / .*a _ .*
=> >b => .*a _ .*
<= b <= .*a _ @
<= <= b / .*a _ @
/<= b /<= .*a _ .*
/<= </<= b / .*a _ .*
TABLE
refused "both at once" "<=> is two lines: one begins with >, one with ^" ':ab\nb <=> .*a _ .*\n'
refused "a comment with one" "there are no comments" ':ab\n# b => a\n'

pier compile ramp.book -o ramp.card >/dev/null
status 1 pier compile ramp.card -o x.card
has "a card given as a book" "these bytes begin as a card does" "$(cat err)"
check "whose bytes are not shown" 0 "$(grep -c '|' err)"
status 1 pier judge ramp.book ramp.plans
has "a book given as a card" "it begins with :, as a book does" "$(cat err)"
: >none.card
status 1 pier check none.card
has "an empty card" "the file is empty; if it is a book, pier compile makes its card" "$(cat err)"

# noted WORDS BOOK: it compiles, with one note that has these words; none for ''.
noted() {
    printf "$2" | pier compile - -o x.card >out 2>err
    check "compiled: $2" 0 $?
    check "notes on: $2" "$([ -n "$1" ] && echo 1 || echo 0)" "$(grep -c 'note:' err)"
    has "note on: $2" "$1" "$(cat err)"
}
noted "line 2: the left side a describes the whole rest of the day before the pattern; write .*a" ':ab\n>b / a _ .*\n'
noted "line 2: the right side a describes the whole rest of the day behind the pattern; write a.*" ':ab\n>b / .* _ a\n'
noted "" ':ab\n>b / .*a _ .*\n'
noted "" ':ab\n>b / a.* _ @\n'
noted "" ':ab\n<b / .*a _ .*\n'
noted "" ':ab\n^(ab)* / @ _ @\n'
noted "" ':abc\n^b*|.*a.* / .*a _ a.*\n'
noted "line 2: the left side a describes the whole rest of the day before the pattern; write .*a" ':ab\n<b / a _ .*\n'
noted "line 2: the left side a describes the whole rest of the day before the middle; write .*a" ':ab\n^b* / a _ @\n'
noted "line 2: the right side .* lets the middle end anywhere" ':ab\n^(bb)* / .*a _ .*\n'
noted "line 3: the left side .*a.* lets the middle begin anywhere" ':ab\n=N (ab)*\n^N / .*a.* _ @\n'
noted "this book allows every plan" ':ab\n>b / .* _ .*\n'
noted "this book has no rule" ':ab\n'
noted "this book has no rule" ':ab\n=A ab\n'
noted "this book is empty" ''
noted "" ':ab\n>a\n>b\n'
for book in *.book; do
    notes=0
    case $book in island.book | islet.book) notes=1 ;; esac
    check "notes on $book" "$notes" "$(pier compile "$book" -o x.card 2>&1 >/dev/null | wc -l)"
done
printf ':ab\n>b / a _ .*\n' | pier compile - -o x.card >out 2>/dev/null
check "the envelope alone on standard output" 4 "$(wc -l <out)"

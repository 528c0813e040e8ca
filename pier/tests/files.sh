# Files: nothing is destroyed, nothing is half-written.

pier compile ramp.book -o ramp.card >/dev/null
ln -s ramp.book soft.book && ln ramp.book hard.book
ln -s ramp.card soft.svg && ln ramp.card hard.svg && ln ramp.card hard.html && ln ramp.card hard.dot
book=$(cksum <ramp.book)
card=$(cksum <ramp.card)
for output in ramp.book soft.book hard.book ./ramp.book "$PWD/ramp.book"; do
    status 2 pier compile ramp.book -o "$output"
    has "an output that is the book" "nothing is written" "$(cat err)"
done
pier compile - -o ramp.book <ramp.book >out 2>err
check "also through standard input" 2 $?
pier compile ramp.book -o - >>hard.book 2>err
check "also through standard output" 2 $?
status 2 pier draw soft.svg -o ramp.card
for output in soft.svg hard.svg hard.dot; do status 2 pier draw ramp.card -o $output; done
status 2 pier page ramp.card -o hard.html
check "the book is as it was" "$book" "$(cksum <ramp.book)"
check "the card is as it was" "$card" "$(cksum <ramp.card)"
check "links are links" "soft.book soft.svg" "$(find . -type l | sort | sed 's/^..//' | tr '\n' ' ' | sed 's/ $//')"

for output in x.png x x.svgz x.book; do
    status 2 pier draw ramp.card -o $output
    check "no $output" no "$([ -e $output ] && echo yes || echo no)"
done
status 2 pier page ramp.card -o x.svg
has "the ending is told" "doesn't end in .html" "$(cat err)"

# A refused book leaves the card as it was, and nothing is left beside it.
printf ':ab\n>c\n' >wrong.book
status 1 pier compile wrong.book -o ramp.card
check "a refusal leaves the card" "$card" "$(cksum <ramp.card)"
mkdir full
status 2 pier compile ramp.book -o full
status 2 pier compile ramp.book -o missing/ramp.card
check "nothing half-written" "" "$(find . -name '*.part')"

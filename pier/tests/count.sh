# How many plans of a length there are, by reply: figures, tables, what is past counting, words that are no length.

# book NAME TEXT: the card of a text.
book() { printf "$2" | pier compile - -o "$1.card" >/dev/null 2>&1 || wrong "the book of $1"; }
book first ':ab\n>b / .*a _ .*\n'
book nothing ':ab\n>@ / a _ .*\n'
book two ':ab\n'
book three ':abc\n'
book four ':abcd\n'
book one ':a\n'
book even ':a\n^(aa)* / @ _ @\n'
book all ":$(printf '%s' {a..z})\n"
book last ":$(printf '%s' {a..z})\n>.-z\n"
book empty ''
printf '\014\0\0\0\014\0\1\0\015\0\0\0\2' >never.card

# figures CARD LENGTH: the three figures in a row, or the refusal's number.
figures() {
    if pier count "$1" "$2" >out 2>err; then sed 's/.* //' out | tr '\n' ' ' | sed 's/ $//'; else sed -n 's/.*: \(refused [0-9]*\) .*/\1/p' err; fi
}
while read -r card length expected; do
    check "plans of $length letters by $card" "$expected" "$(figures $card.card $length)"
done <<'TABLE'
first 0 1 0 0
first 1 1 0 1
first 2 2 0 2
first 3 3 0 5
first 63 10610209857723 0 9223361426644918085
first 64 refused 31
nothing 0 0 0 1
nothing 3 0 0 8
nothing 63 0 0 9223372036854775808
nothing 64 refused 31
two 0 1 0 0
two 3 8 0 0
two 63 9223372036854775808 0 0
two 64 refused 31
three 40 12157665459056928801 0 0
three 41 refused 31
four 31 4611686018427387904 0 0
four 32 refused 31
one 0 1 0 0
one 4096 1 0 0
one 4097 refused 31
even 4095 0 1 0
even 4096 1 0 0
even 18446744073709551615 refused 31
all 13 2481152873203736576 0 0
all 14 refused 31
last 13 1 0 2481152873203736575
last 4096 refused 31
empty 0 1 0 0
empty 1 0 0 0
empty 5 0 0 0
empty 4096 0 0 0
empty 4097 refused 31
never 0 0 0 1
never 1 0 0 0
never 4097 refused 31
first 00002 2 0 2
first 18446744073709551616 refused 31
first 100000000000000000000000000000002 refused 31
TABLE
status 0 pier count first.card 2
check "three lines" "allowed 2
unfinished 0
hopeless 2" "$(cat out)"
check "and no other word" "" "$(cat err)"
check "the card from standard input" "$(cat out)" "$(pier count - 2 <first.card)"
check "the card of a book in a pipe" "$(pier count three.card 5)" "$(printf ':abc\n' | pier compile - -o - 2>/dev/null | pier count - 5)"

# Past counting: told with the greatest length that is not; the card comes first.
while read -r card letters length; do
    status 0 pier count $card.card $length
    status 1 pier count $card.card $((length + 1))
    check "no figure" "" "$(cat out)"
    check "31 of $card" "$card.card: refused 31 (past counting): plans of over 4,096 letters, or over 18,446,744,073,709,551,615 plans
  look at: on a card with ${letters//_/ }, plans of up to $length letters can be counted
  advice: ask for shorter plans" "$(cat err)"
done <<'TABLE'
empty no_letters 4096
one 1_letter 4096
first 2_letters 63
three 3_letters 40
four 4_letters 31
all 26_letters 13
TABLE
sed -n 's/^| letters on the card | 0 or 1 |//p' "$top/docs/GUIDE.md" | tr -d '|' | xargs -n 1 >letters
sed -n 's/^| the greatest length | 4,096 |//p' "$top/docs/GUIDE.md" | tr -d '|' | xargs -n 1 >lengths
[ "$(wc -l <letters)" -ge 8 ] || wrong "the guide's lengths"
while read -r letters length; do
    book some ":$(printf '%s' {a..z} | head -c "$letters")\n"
    check "the guide's length for $letters letters" "counted refused 31" \
        "$(pier count some.card $length >/dev/null 2>&1 && echo counted) $(figures some.card $((length + 1)))"
done < <(paste letters lengths)

pier compile ramp.book -o ramp.card >/dev/null
printf '' >none.card
head -c 20 ramp.card >short.card
printf '\014\0\1\0\015\0\1\0\016\0\1\0A\1\0' >22.card
printf '\014\0\1\0\015\0\1\0\016\0\1\0a\1\1' >23.card
printf '\014\0\1\0\015\0\2\0\017\0\2\0a\1\2\0\1' >24.card
printf '\014\0\1\0\015\0\1\0\016\0\1\0a\0\0' >25.card
printf '\014\0\1\0\015\0\2\0\017\0\2\0a\1\1\1\0' >26.card
for card in none.card short.card 22.card 23.card 24.card 25.card 26.card ramp.book; do
    pier check $card >/dev/null 2>told
    for lengths in 3 5000 0..3 5000..6000; do
        status 1 pier count $card $lengths
        check "$card is told as by check" "$(cat told)" "$(cat err)"
        check "without a figure" "" "$(cat out)"
    done
done
has "the number" "short.card: refused 21 (contents)" "$(pier count short.card 5000 2>&1)"

# Tables.
status 0 pier count first.card 0..3
check "a table" "length  plans  allowed    share  unfinished  share  hopeless   share
     0      1        1  100.00%           0  0.00%         0   0.00%
     1      2        1   50.00%           0  0.00%         1  50.00%
     2      4        2   50.00%           0  0.00%         2  50.00%
     3      8        3   37.50%           0  0.00%         5  62.50%" "$(cat out)"
status 0 pier count first.card 2..2
check "of one line" "length  plans  allowed   share  unfinished  share  hopeless   share
     2      4        2  50.00%           0  0.00%         2  50.00%" "$(cat out)"
status 0 pier count empty.card 0..1
check "where there is no plan" "length  plans  allowed    share  unfinished  share  hopeless  share
     0      1        1  100.00%           0  0.00%         0  0.00%
     1      0        0        -           0      -         0      -" "$(cat out)"
status 0 pier count last.card 12..13
check "with wide figures" "length                plans  allowed   share  unfinished  share             hopeless    share
    12    95428956661682176        1  <0.01%           0  0.00%    95428956661682175  >99.99%
    13  2481152873203736576        1  <0.01%           0  0.00%  2481152873203736575  >99.99%" "$(cat out)"
for lengths in 62..64 62..5000 62..99999999999999999999; do
    status 1 pier count first.card $lengths
    check "a table that ends, $lengths" "62 63" "$(sed 1d out | awk '{ print $1 }' | tr '\n' ' ' | sed 's/ $//')"
    check "with the refusal once, $lengths" "1 3" "$(grep -c 'refused 31 (past counting)' err) $(wc -l <err)"
done
for lengths in 64..64 64..70 5000..99999999999999999999; do
    status 1 pier count first.card $lengths
    check "no table, $lengths" "" "$(cat out)"
    check "but the refusal, $lengths" "1 3" "$(grep -c 'refused 31 (past counting)' err) $(wc -l <err)"
done
status 0 pier count even.card 0..4096
check "a long table" "4098 2049 2048" "$(wc -l <out) $(awk '$3 == 1' out | wc -l) $(awk '$5 == 1' out | wc -l)"
(pier count even.card 0..4096; echo "status $?" >closed) 2>err | head -n 1 >head
check "a closed pipe ends quietly" "status 0" "$(cat closed)$(cat err)"

# In a table the three sum to the whole, that is the letters to the power of the length; a line has
# the figures of a call by itself; the columns end where their heads do. Numbers wrap at 64 bits, so sums compare.
for card in first nothing three last; do
    letters=$(pier show $card.card | sed -n 's/^letters \([0-9]*\).*/\1/p')
    pier count $card.card 0..100 >table 2>/dev/null
    check "one width of $card's table" 1 "$(awk '{ print length }' table | sort -u | wc -l)"
    sed 1d table | tr -d '%' | while read -r length plans allowed _ unfinished _ hopeless _; do
        [ $((allowed + unfinished + hopeless)) = $((plans)) ] && [ $((letters ** length)) = $((plans)) ] || echo "$length"
        [ "$(figures $card.card $length)" = "$allowed $unfinished $hopeless" ] || echo "$length alone"
    done >odd
    check "the sums of $card" "" "$(cat odd)"
done

# In the samples each figure is the number in a listing of the plans, judged one by one.
for book in *.book; do
    name=${book%.book}
    pier compile "$book" -o "$name.card" >/dev/null 2>&1
    letters=$(sed -n '1s/^://p' "$book" | sed 's/./& /g')
    echo >listed
    for length in 0 1 2 3 4; do
        for word in allowed unfinished hopeless; do echo "$word $(pier judge "$name.card" listed 2>/dev/null | grep -c "^$word")"; done >expected
        check "plans of $length letters by $name, listed" "$(cat expected)" "$(pier count "$name.card" $length)"
        while read -r plan; do for letter in $letters; do echo "$plan$letter"; done; done <listed >longer
        mv longer listed
    done
done

# One rule less: as many plans allowed or more, as many hopeless or fewer.
: >tried
for book in *.book; do
    name=${book%.book}
    pier count "$name.card" 0..9 >with
    grep -n '^[<>^]' "$book" | cut -d : -f 1 | while read -r line; do
        sed "${line}d" "$book" | pier compile - -o less.card >/dev/null 2>&1 || continue
        pier count less.card 0..9 >without
        echo "$name $line" >>tried
        paste with without | awk -v line="$line" 'NR > 1 && ($3 > $11 || $7 < $15) { print line, $1 }'
    done >odd
    check "the rules of $name cost nothing below 0" "" "$(cat odd)"
done
check "rules that were taken out" yes "$([ "$(wc -l <tried)" -ge 50 ] && echo yes || wc -l <tried)"

# Words that are no length.
for word in x '' ' ' 5x -5 -0 +5 5.. ..5 .. 1...5 1-5 1..2..3 4,096 0x10 1e3 5.0 -; do
    status 2 pier count first.card "$word"
    check "$word is no length" "pier: $word is no length; write a number, as in pier count CARD 5, or a range, as in pier count CARD 0..5
Try: pier count --help" "$(cat err)"
    check "and nothing is counted" "" "$(cat out)"
done
while read -r word meant; do
    status 2 pier count first.card $word
    check "$word runs backwards" "pier: $word runs backwards: write $meant
Try: pier count --help" "$(cat err)"
done <<'TABLE'
5..3 3..5
1..0 0..1
99999999999999999999..7 7..99999999999999999999
TABLE
status 2 pier count first.card
has "no length" "pier: K[..L] is missing" "$(cat err)"
status 2 pier count first.card 1 5
has "two lengths" "pier: 3 words, and at most 2 are taken: CARD K[..L]" "$(cat err)"
status 2 pier count 5 first.card
has "the other way round" "first.card is no length" "$(cat err)"
status 2 pier count missing.card 5
has "no card" "can't read missing.card" "$(cat err)"
status 2 pier count first.card 5 --explain
has "no option" "no option --explain" "$(cat err)"
cp first.card ./-card
status 0 pier count -- -card 2
has "the help" "refused 31" "$(pier help count)"

# The unit tests, statuses, words of the command line.

# The second program answers in the unit tests.
if (cd "$here" && cargo test --offline --quiet --features reference --target-dir target/reference) >units 2>&1; then
    right
else
    wrong "unit tests"
    cat units
fi

status 0 pier --help
status 2 pier
status 2 pier frobnicate
check "wrong usage is told on standard error" "pier: no command frobnicate
Try: pier --help" "$(cat err)"
check "and not on standard output" "" "$(cat out)"
for command in compile try judge stretch count show draw page compare check; do
    status 0 pier $command --help
    check "pier help $command is pier $command --help" "$(cat out)" "$(pier help $command)"
    has "pier --help lists $command" "  pier $command " "$(pier --help)"
    status 2 pier $command
    check "pier $command names its help" "Try: pier $command --help" "$(tail -n 1 err)"
done
while read -r word meant; do
    status 2 pier "$word"
    has "$word is answered" "did you mean pier $meant?" "$(cat err)"
done <<'TABLE'
complie compile
jugde judge
strech stretch
conut count
tyr try
comparr compare
hlep help
TABLE
status 2 pier judge ramp.card --explian
has "an option nearly right" "did you mean --explain?" "$(cat err)"

status 0 pier --version
check "pier version is pier --version" "$(cat out)" "$(pier version)"
check "the product" "pier $(sed -n 's/^version = "\(.*\)"/\1/p' "$here/Cargo.toml")" "$(head -n 1 out)"
check "kit, cards and rules" "kit cards rules" "$(sed -n '2,$s/ .*//p' out | tr '\n' ' ' | sed 's/ $//')"
if [ -z "$option" ] && [ -z "${PIER:-}" ] && [ -z "${PIER_LIB:-}" ]; then
    check "the kit's own line" "kit   $(rt version)" "$(sed -n 2p out)"
fi
check "the guide is in the program" "$(cat "$top/docs/GUIDE.md")" "$(pier guide)"

status 2 pier compile ramp.book
status 2 pier compile missing.book -o x.card
status 2 pier show missing.card
status 2 pier check --loud ramp.card
status 0 pier compile ramp.book -o ramp.card
status 0 pier compile ramp.book --output other.card
status 0 pier compile --output=third.card ramp.book
check "three ways to name the output" "$(cksum <ramp.card) $(cksum <ramp.card)" "$(cksum <other.card) $(cksum <third.card)"
cp ramp.card ./-o && cp ramp.plans ./--strict
status 0 pier check -- -o
status 1 pier judge -- -o --strict
status 0 pier compile fuel.book -o fuel.card
status 0 pier judge ramp.card
status 2 pier judge - -
status 2 pier try - -
status 2 pier compare - - ramp.plans
status 1 pier judge ramp.book ramp.plans
status 1 pier stretch ramp.book ramp.plans
status 1 pier stretch ramp.card ramp.plans
status 1 pier judge ramp.card ramp.plans
status 0 pier judge fuel.card fuel.plans
status 0 pier try fuel.book fuel.plans
status 1 pier try fuel.card fuel.plans
status 0 pier compare ramp.card ramp.card
status 1 pier compare ramp.card fuel.card
status 1 pier compare ramp.card ramp.book
status 1 pier check ramp.book
status 1 pier show ramp.book
status 1 pier count ramp.book 5
status 0 pier count ramp.card 5
status 1 pier draw ramp.book -o x.svg
status 1 pier page ramp.book -o x.html

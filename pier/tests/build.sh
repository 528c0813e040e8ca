# Building: the first run's words, the manual page, the completion, installing.

# A copy in which the prover and cargo are played: the words are the same, and nothing is proved.
mkdir -p copy/crates/capi copy/pier copy/samples copy/tools play
cp "$here/build" copy/pier && cp "$top/crates.txt" copy && cp "$top"/samples/* copy/samples && cp "$top/tools/library" copy/tools
touch -d '2 hours ago' copy/crates/capi
cat >play/rt <<'PLAY'
#!/bin/sh
[ "$1" = version ] && { echo "a kit"; exit 0; }
[ "$1" = lib ] && [ "$(basename "$PWD")" = capi ] || exit 2
for crate in $(sed -n 's/^\([a-z_]*\)[ a-z]*:.*/\1/p' ../../crates.txt | grep -v capi | head -n "${CRATES:-1}"); do
    echo "crates/$crate/x.antt:1:1: note: large solution"
    echo "fn $crate::f: proved"
    echo "crate $crate: modules loaded=0 checked=2"
    echo "logic=proved functions=1"
done
[ -n "${FAIL:-}" ] && { echo "fn capi::f: not proved"; exit 1; }
mkdir -p out && echo pier_compile >out/libcapi.a
echo "crate capi: modules loaded=0 checked=2"
echo "logic=proved functions=1"
PLAY
printf '#!/bin/sh\nmkdir -p target/release && ln -sf "%s" target/release/pier\n' "$pier" >play/cargo
chmod +x play/rt play/cargo
FAIL=yes PIER_LIB="" PATH=$PWD/play:$PATH copy/samples/first >words 2>&1
check "a refused proof ends it" 1 $?
has "and is told" "fn capi::f: not proved" "$(cat words)"
number=$(sed -n 's/^proving \([0-9]*\) crates .*/\1/p' words)
CRATES=$((number - 1)) PIER_LIB="" PATH=$PWD/play:$PATH copy/samples/first >words 2>&1
check "the first run" 0 $?
check "it begins with what it will do" "This builds the command pier" "$(head -c 28 words)"
has "and how long" "minutes on two cores" "$(sed -n 2p words)"
check "a line a crate" "$number" "$(grep -c "^ *[0-9]* of $number: " words)"
check "no note of the prover" 0 "$(grep -c -E 'note:|^fn ' words)"
check "which are in the log" $((number - 1)) "$(grep -c 'note: large' copy/target/staticlib.log)"
check "the sum" "done: $number crates proved; 1 book compiled; $(pier try ramp.book ramp.plans 2>&1 >/dev/null | tail -n 1)" "$(tail -n 1 words)"
PIER_LIB="" PATH=$PWD/play:$PATH copy/samples/first >words 2>&1
check "the second run proves nothing" "0 done: the library was proved before" "$(grep -c '^proving' words) $(tail -n 1 words | cut -d ';' -f 1)"

# The manual page.
pier manual >pier.1
for command in compile try judge stretch count show draw page compare check guide help version manual completion; do
    has "the manual has $command" ".SS pier $command" "$(cat pier.1)"
done
if command -v groff >/dev/null; then
    check "the manual is well formed" "" "$(groff -man -ww -Tutf8 pier.1 2>&1 >/dev/null)"
else
    left_out "the manual page through groff: it is not installed"
fi

# Completion, as bash asks for it.
completed() { bash -c 'source <(pier completion); COMP_WORDS=("$@"); COMP_CWORD=$(($# - 1)); _pier; echo "${COMPREPLY[*]}"' - "$@" 2>/dev/null; }
check "commands are completed" "compile compare completion" "$(completed pier comp)"
check "choices are completed" "--explain" "$(completed pier judge --e)"
check "also of stretch" "--explain --strict --progress --help" "$(completed pier stretch --)"
check "count has none" "--help" "$(completed pier count -)"
check "the output, too" "--output" "$(completed pier draw --o)"
check "files are completed" "ramp.book" "$(completed pier compile ramp.b)"
check "help's commands are completed" "judge" "$(completed pier help ju)"

# Installing.
if [ -n "${PIER:-}" ]; then
    left_out "installing: another pier is given"
else
    "$here/build" $option --install "$PWD/installed" >words 2>&1
    check "installed" 0 $?
    check "the command" "$(pier version)" "$(installed/bin/pier version)"
    check "its manual page" "$(pier manual)" "$(cat installed/share/man/man1/pier.1)"
    check "its completion" "$(pier completion)" "$(cat installed/share/bash-completion/completions/pier)"
fi

# The commands of the documents, in a fresh copy of the samples, with the output written there.

for document in GUIDE FORMAT; do
    rm -rf fresh && mkdir fresh && cp "$top"/samples/* fresh
    awk -v RS='```console\n' 'NR > 1 { sub(/\n```.*/, ""); print }' "$top/docs/$document.md" >blocks
    number=0
    command=""
    expected=""
    run() {
        [ -z "$command" ] && return
        number=$((number + 1))
        check "$document.md, command $number: $command" "$expected" "$(cd fresh && bash -c "$command" 2>&1)"
    }
    while IFS= read -r line; do
        case $line in
            '$ '*) run; command=${line#'$ '}; expected="" ;;
            *) expected=${expected:+$expected$'\n'}$line ;;
        esac
    done <blocks
    run
    command=""
    [ "$number" -gt 0 ] || wrong "$document.md has no commands"
done

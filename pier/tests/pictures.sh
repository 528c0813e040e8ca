# Pictures; the page's script, and the page in a real browser.

pier compile ramp.book -o ramp.card >/dev/null
pier compile pilots.book -o pilots.card >/dev/null
pier compile hazard.book -o hazard.card >/dev/null
pier compile islet.book -o islet.card >/dev/null 2>&1
pier compile night.book -o night.card >/dev/null
mkdir none && ln -s "$pier" none/pier
check "drawn without any other program" "wrote ramp.svg" "$(PATH=$PWD/none pier draw ramp.card -o ramp.svg 2>&1)"
check "a picture" "<svg xmlns=" "$(head -c 11 ramp.svg)"
check "its states" 5 "$(grep -c 'class="state"' ramp.svg)"
check "its text for Graphviz" "$(pier draw ramp.card -o -)" "$(pier draw ramp.card -o ramp.dot >/dev/null; cat ramp.dot)"
has "a small card shows the hopeless state" "1 hopeless" "$(cat ramp.svg)"
for kind in svg dot; do
    pier draw pilots.card -o pilots.$kind >/dev/null
    pier draw pilots.card -o all.$kind --all >/dev/null
    check "a large one leaves it out ($kind)" "0 1" "$(grep -c '1 hopeless' pilots.$kind) $(grep -c '1 hopeless' all.$kind)"
done
check "and its arrows" "$(($(pier show pilots.card | sed 1,5d | wc -l))) more" "$(($(grep -c -- '->' all.dot) - $(grep -c -- '->' pilots.dot))) more"
check "labels are written one way" "" "$(grep -o 'label="[a-z -]*"' all.dot | grep -E '(a b|b c|c d|d e|r s|s t)' || true)"

pier page ramp.card -o ramp.html >/dev/null
pier page pilots.card -o pilots.html >/dev/null
pier page hazard.card -o hazard.html >/dev/null
pier page islet.card -o islet.html >/dev/null
pier page night.card -o night.html >/dev/null
check "the page loads nothing" 0 "$(grep -v 'xmlns=' ramp.html | grep -c -E 'https?:|src=|href=|@import')"
if command -v node >/dev/null; then
    for name in ramp pilots hazard islet night; do
        {
            sed -n '/^<script>/,/^function show/p' $name.html | sed '1d; $d'
            echo 'for (const plan of ['
            sed 's/.*/"&",/' $name.plans
            echo ']) console.log(judge(plan).reply);'
        } >judge.js
        check "the script of $name.html" "$(pier judge $name.card $name.plans 2>/dev/null)" "$(node judge.js 2>&1)"
    done
else
    left_out "the page's script by itself: node is not installed"
fi
browser=$(command -v chromium || command -v chromium-browser || command -v google-chrome || command -v headless_shell || true)
if [ -z "$browser" ]; then
    left_out "the page in a browser: none is installed (chromium)"
else
    # seen PAGE: the page after its script ran.
    seen() { timeout 120 "$browser" --headless --no-sandbox --disable-gpu --user-data-dir="$PWD/profile" --dump-dom "file://$PWD/$1" 2>/dev/null; }
    has "the picture in a browser" 'id="state0"' "$(seen ramp.svg)"
    check "which finds no fault" 0 "$(seen all.svg | grep -c parsererror)"
    for name in ramp pilots hazard islet night; do
        # The plans are typed into the box one by one.
        {
            cat $name.html
            echo '<pre id="replies"></pre><script>for (const plan of ['
            sed 's/.*/"&",/' $name.plans
            echo ']) { box.value = plan; box.dispatchEvent(new Event("input"));'
            echo 'document.getElementById("replies").textContent += document.getElementById("reply").textContent + "\n"; }</script>'
        } >typed.html
        check "$name.html in a browser" "$(pier judge $name.card $name.plans 2>/dev/null)" \
            "$(seen typed.html | sed -n '/<pre id="replies">/,/<\/pre>/p' | sed 's/.*<pre id="replies">//; s/<\/pre>.*//' | sed '/^$/d')"
    done
    has "what is owed" '<output id="reply" for="plan" class="open">unfinished 3</output>' "$(seen 'night.html#a')"
    seen 'ramp.html#dlcu' >dom
    has "a plan behind #" '<output id="reply" for="plan" class="bad">hopeless 3</output>' "$(cat dom)"
    has "letter by letter" '<span>d<small>2</small></span><span>l<small>3</small></span><span class="bad">c<small>1</small></span>' "$(cat dom)"
    has "the row is marked" '<tr id="row1" class="hopeless now">' "$(cat dom)"
    has "the state is marked" '<g class="state now" id="state1">' "$(cat dom)"
fi

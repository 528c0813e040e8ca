# The guide's operators, shapes and sizes.

# holds SET EXPECTED PLAN: is the plan in the set, over a, b, c? A z stands before the plan, and what follows it is the rule's right side.
holds() {
    printf ':abcz\n>z / @ _ %s\n' "$1" >set.book
    pier compile set.book -o set.card >out 2>&1 || { wrong "set $1"; cat out; return; }
    case $(echo "z$3" | pier judge set.card) in allowed) check "$3 in $1" "$2" yes ;; *) check "$3 in $1" "$2" no ;; esac
}
while read -r set in out; do
    for plan in ${in//,/ }; do holds "$set" yes "${plan#-}"; done
    for plan in ${out//,/ }; do holds "$set" no "${plan#-}"; done
done <<'TABLE'
a a b,aa,-
. a,b,c ab,-
@ - a
ab ab a,ba
a* -,a,aaa b,ab
a+ a,aa -
a? -,a aa
a|bc a,bc abc
.*a&.. aa,ba,ca a,cba
.-a b,c a,bb
!(.*a.*) -,bcb a,bab
!a* b,ab,ba -,a,aa
!ab b,bb,aab ab,a
a|b&c a b,c
TABLE

# The shapes: rules (separated by ;), plans allowed, plans not.
while read -r rules in out; do
    printf ':abcxy\n%s\n' "${rules//;/$'\n'}" >set.book
    pier compile set.book -o set.card >out.text 2>&1 || { wrong "rules $rules"; cat out.text; continue; }
    for plan in ${in//,/ }; do check "$plan by $rules" allowed "$(echo "${plan#-}" | pier judge set.card)"; done
    for plan in ${out//,/ }; do
        reply=$(echo "${plan#-}" | pier judge set.card)
        case $reply in allowed) wrong "$plan by $rules: $reply" ;; *) right ;; esac
    done
done <<'TABLE'
>b/.*a_.* -,ab,cab b,acb
>b/a.*_.* acb,ab b,cab
>b/a_.* ab,abc cab,acb
>b/.*_c.* bc,abca b,bac
>b/.*_.*c.* bc,bac b,cb
>b/a_a/c_c aba,cbc abc,ab
>x -,a x,ax
>xy yx,xay xy
>x/.*a!(.*b.*)_.* ax,acx x,abx
>x/.*_.*y.* xy,xay x,yx
>x.*x x,axa xx,xax
>x/@_.*;>y/.*_@ xay,x,y ax,ya
>.-x/.+_.* -,x,xa a,ax
>a/!(.*a.*)|.*b!(.*a.*)_.*;>b/.*a!(.*b.*)_.* -,a,acb,aba b,aa,abb
>x/.*_.?.?y.* xy,xay,xaay x,xaaay
>a+/.*b_.* -,b,ba a,baa
<x/.*a_.* -,xa,abx ax,bax
<x/.*a.*_.* xa,x ax,abx
<x/.*a!(.*b.*)_.* xa,abx ax,acx,abax
<x/.*y_y.* yx,xy,yaxy yxy,ayxyb
<x/@_.*/.*_@ -,axa x,xa,ax
<x/.*y.*_.*/.*_.*y.* -,axa,y xy,yx,yax
<a/b_b a,ba,babb bab
^(ab)*/@_@ -,ab,abab a,ba,abb
^x.*|@/@_@ -,x,xa a,ax
^(a|b)*|.*x.*/@_x.* x,abx,axcx,c cx,acxa
^(x|y)*|.*b.*/.*a_b.* ab,axyb,cac,abcab acb,axcb
^x*y*|.*b.*/.*a_b.* ab,axxyb,abab,ayx ayxb
^y*|.*x.*/.*x_@ -,x,axyy,axaxy xa,xya
^.*b.*/.*a_@ -,cab,acb ac,bac,abaca
^b.*/.*a_@ b,ab,abc ac,acb
^b/.*a_.* -,b,cb abc,ac
^x*/.*a_b.* ab,axxb,ba abab,acb
>x/.*a_.*;<x/.*_y.*;^(a|x|y)*/@_@ -,ax,yaxa x,axy,axc
^(a|x)*/@_@;>x/.*a_.*;<x/.*_a.* -,ax,aax x,axa,axb
TABLE

# Other words, the same card: books (their lines separated by ;) in pairs.
while read -r one other; do
    printf ':abcxy\n%s\n' "${one//;/$'\n'}" | pier compile - -o one.card >/dev/null 2>&1 || wrong "rules $one"
    printf ':abcxy\n%s\n' "${other//;/$'\n'}" | pier compile - -o other.card >/dev/null 2>&1 || wrong "rules $other"
    check "$one is $other" "$(cksum <one.card)" "$(cksum <other.card)"
    rm -f one.card other.card
done <<'TABLE'
>x <x/.*_.*
>xa|y <xa|y/.*_.*
<x/.*a_b.* >x/!(.*a)_.*/.*_!(b.*)
<x/.*a_b.* ^!(x)/.*a_b.*
^x*y*|.*b.*/.*a_b.* <!(x*y*|.*b.*)/.*a_b.*
^(ab)*/@_@ >!((ab)*)/.+_.*/.*_.+
<x/.*a_.*/.*_b.* <x/.*a_.*;<x/.*_b.*
<x/.*a_.*/.*_b.* >x/!(.*a)_!(b.*)
^x*/.*a_b.*/.*b_a.* ^x*/.*a_b.*;^x*/.*b_a.*
^(a|x)*/@_@;>x/.*a_.*;<x/.*_a.* <x/.*_a.*;^(a|x)*/@_@;>x/.*a_.*
=Nxy*;<N/.*a_b.* <xy*/.*a_b.*
TABLE

# The sizes.
sed -n 's/^| `\(>a\.*b\)` | \([0-9]*\) | \([0-9]*\) |$/\1 \2 \3/p' "$top/docs/GUIDE.md" >sizes
[ "$(wc -l <sizes)" -ge 6 ] || wrong "the guide's sizes"
while read -r rule states peak; do
    printf ':ab\n%s\n' "$rule" >set.book
    check "size of $rule" "states  $states peak    $peak of 512" \
        "$(pier compile set.book -o set.card | sed -n '2p;4p' | tr '\n' ' ' | sed 's/ $//')"
done <sizes
sed -n 's/^| `\([<^][^`]*\)` | \([0-9]*\) | `\(>[^`]*\)` | \([0-9]*\) | \([0-9]*\) |$/\1;\2;\3;\4;\5/p' "$top/docs/GUIDE.md" >sizes
[ "$(wc -l <sizes)" -ge 3 ] || wrong "the guide's sizes of the other kinds"
while IFS=';' read -r rule peak same other states; do
    check "sizes of $rule" "states  $states peak    $peak of 512 states  $states peak    $other of 512" \
        "$(for words in "$rule" "$same"; do printf ':ab\n%s\n' "$words" | pier compile - -o set.card 2>/dev/null; cksum <set.card >>cards; done \
            | sed -n '2p;4p;6p;8p' | tr '\n' ' ' | sed 's/ $//')"
    check "and one card" 1 "$(sort -u cards | wc -l)"
    rm -f cards
done <sizes

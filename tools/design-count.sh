#!/usr/bin/env bash
# Counts, in a checkout, the places in crates/*/src that docs/DESIGN-PASS.md speaks of, point by point. With 'places' it prints them too.
set -u
cd "$(dirname "$0")/.." || exit 2
show=${1:-}

# A name, and a pattern for grep -E; comment lines do not count.
count() {
    local found
    found=$(grep -nE "$2" crates/*/src/*.rt | grep -vE '^[^:]+:[0-9]+: *//')
    printf '%-52s %s\n' "$1" "$(printf '%s' "$found" | grep -c .)"
    [ "$show" = places ] && [ -n "$found" ] && printf '%s\n' "$found" | sed 's/^/    /'
}

count '1 enums of our own' '^ *(pub )?enum '
count '1 a flag or an answer with a value beside it' '^ *(pub )?(form: Form|answer: Answer|once: bool|more: bool),'
count '1 kinds, tags and codes held as numbers' '^ *pub (kind|tag|code|target|reference): u8,'
count '1 parameters that are a kind as a number' '\b(kind|deed|since|used): u8\b|deeds: \[u8'
count '1 refusals and checks as numbers or own enums' '\b(Check|Form)::(Holds|Fails|Good|Bad)\b'
count '3 loops that are no for' '^ *(while|loop)\b'
count '3 an index counted by hand' '^ *[a-z]+ (\+|-)= 1;'
count '4 names compared by their numbers' '\.0 (==|!=) [a-z_.]+\.0\b'
count '4 a datum compared part by part' '\.(tag|number) (==|!=) [a-z]+\.(tag|number)'
count '4 conversion and printing by hand' '^ *(pub )?fn (number|wide|crc\w*|copy|same_\w+|put_\w+|hex_digit|print_told|print_found)\b'
count '5 lengths of images, slots, nodes in a requires' 'requires.*\b(Sized|Scripted|SlotSized|NodeSized)\b'
count '5 good images in a requires' 'requires.*\b(Lent|GoodImages)\b'
count '5 script and net side by side in a signature' 'fn .*script: &.*net: &'
count '6 an output and where it ends, lengths beside rooms' 'out: &mut \[u8\], at: usize|\b(have|length|script_length|net_length): usize'
count '7 an if on a code or a letter that picks what to run' '^ *if (r\.code|what) =='

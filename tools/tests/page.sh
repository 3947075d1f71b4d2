# The manual page has every word, option, status and answer, and no warnings.
# Its text without fonts; a line that ends with a backslash goes on in the next.
plain=$(sed -e ':a' -e '/\\$/{N;s/\\\n//;ba' -e '}' -e 's/\\f[BIR]//g' -e 's/\\-/-/g' "$page")

# block WORD: the part of the page about a word
block() { printf '%s\n' "$plain" | awk -v word="$1" '/^cfb / || /^\.SH/ { on = $1 == "cfb" && $2 == word } on'; }

# tagged TEXT: the paragraph that begins so, in what is read
tagged() { grep -qxF -e "$1" -e ".B $1"; }

words=$("$cfb" --help | sed -n '/^words:/,/^$/s/^  \([a-z]*\) .*/\1/p')
expect "cfb --help has words" [ "$(echo $words | wc -w)" -ge 16 ]
for word in $words; do
    usage=$("$cfb" $word --help | sed -n '1s/^usage: //p')
    expect "$word has its usage on the page" equal "$(block $word | sed -n 1p)" "$usage"
    "$cfb" $word --help | sed -n '/^options:/,/^$/s/^  \(-[^ ]*\( [A-Z0-9|]*\)\{0,1\}\)  *.*/\1/p' >"$dir/options"
    # the usage has an opening bracket for each
    expect "the options of $word are read" [ "$(wc -l <"$dir/options")" -eq "$(printf '%s' "$usage" | tr -dc '[' | wc -c)" ]
    while read -r option; do
        block $word >"$dir/out"
        expect "$word $option is on the page" tagged "$option" <"$dir/out"
    done <"$dir/options"
done
printf '%s\n' "$plain" | sed -n '/^\.SH WORDS/,/^\.SH HOW/s/^cfb \([a-z]*\) .*/\1/p' | sort >"$dir/out"
expect "the page has no other words" equal "$(cat "$dir/out")" "$(printf '%s\n' $words | sort)"
printf '%s\n' "$plain" >"$dir/out"
for option in --help -h --version -V; do
    expect "$option is on the page" grep -q -e "^\.BR .*$option\>" "$dir/out"
done

# section NAME: a section of the page
section() { awk -v name="$1" '/^\.SH/ { on = substr($0, 5) == name } on' "$page"; }
statuses=$("$cfb" --help | sed -n '/^exit status:/,$s/^  \([0-9]*\)  .*/\1/p')
expect "the statuses" equal "$(section "EXIT STATUS" | sed -n 's/^\.B \([0-9]*\)$/\1/p')" "$statuses"
answers=$(cat "$top/include/cfb.h" "$top/include/pulse.h" |
    sed -n '/^\/\* Answers/,/^$/s/^#define [A-Z_]* \([0-9]*\)u.*/\1/p' | grep -vx 0)
expect "the headers have answers" [ "$(echo $answers | wc -w)" -ge 27 ]
expect "the answers" equal "$(section ANSWERS | sed -n 's/^\.B \([0-9]*\)$/\1/p')" "$answers"
expect "the completion has the words" equal "$(sed -n 's/^_cfb_words="\(.*\) help"$/\1/p' "$top/cli/completion.bash")" "$(echo $words)"

# its examples, one after the other, as a user types them
printf '%s\n' "$plain" | awk '/^\.EX/ { on = 1; next } /^\.EE/ { on = 0 } on' | sed -e "s/\\\\(aq/'/g" -e 's/\\e/\\/g' >examples
expect "the examples are read" [ "$(wc -l <examples)" -ge 10 ]
run env PATH="$(dirname "$cfb"):$PATH" sh -e examples
expect "the examples" is_status 0
expect "they have no errors" silent
expect "they print what they should" grep -qx "valve 12 closes" "$dir/out"
expect "the pulse is there" grep -qx "record 0: valve 12 ticks 25" "$dir/out"
expect "what is extracted" [ "$(cat rig/Site/log)" = "$(printf 'valve 12 opens\nvalve 12 closes')" ]

if has groff "warnings of groff about the page"; then
    run groff -man -ww -Tutf8 "$page"
    expect "groff has no warnings" is_status 0
    expect "groff is silent" silent
fi
if has man "warnings of man about the page"; then
    run env LC_ALL=C.UTF-8 MANWIDTH=80 man --warnings -l "$page"
    expect "man renders the page" grep -q '^NAME' "$dir/out"
    expect "man has no warnings" silent
fi

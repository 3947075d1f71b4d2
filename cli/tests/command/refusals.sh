# Each refusal leaves the file to the last byte, and nothing beside it.
cp "$samples/site.cfb" s.cfb
cp s.cfb before
run cat s.cfb Site/logs
expect "21" refused 21
expect "21 names file and path" says "s.cfb: Site/logs: "
feed 'x' put s.cfb Sites/log
expect "21 of put" refused 21
feed 'x' append s.cfb Site/logs
expect "21 of append" refused 21
run cat s.cfb Site/log/x
expect "22" refused 22
feed 'x' put s.cfb Site/log/x
expect "22 of put" refused 22
run cat s.cfb Site
expect "23" refused 23
feed 'x' put s.cfb Site
expect "23 of put" refused 23
feed 'x' append s.cfb Site
expect "23 of append" refused 23
run cat s.cfb ''
expect "23 of the root" refused 23
run resize s.cfb Site 5
expect "23 of resize" refused 23
run cat s.cfb /Site
expect "20" refused 20
run mk s.cfb 'Site/a:b'
expect "20 of mk" refused 20
run mk s.cfb '\0000'
expect "20 of a zero" refused 20
run mk s.cfb 12345678901234567890123456789012
expect "20 of a long name" refused 20
run resize s.cfb Site/log 1M
expect "26" refused 26
run resize s.cfb Site/log 18446744073709551615
expect "26 of the longest" refused 26
head -c 100000 /dev/zero | "$cfb" put s.cfb Site/log >"$dir/out" 2>"$dir/err"
status=$?
expect "26 of put" refused 26
"$cfb" append s.cfb Site/log </dev/zero >"$dir/out" 2>"$dir/err"
status=$?
expect "26 of an input without end" refused 26
run mk s.cfb SITE/LOG
expect "29" refused 29
run mkdir s.cfb Site
expect "29 of mkdir" refused 29
run mkdir s.cfb ''
expect "29 of the root" refused 29
run rm s.cfb Site
expect "28" refused 28
run rm s.cfb ''
expect "31" refused 31
run rm s.cfb none
expect "21 of rm" refused 21
run rm -r s.cfb none
expect "21 of rm -r" refused 21
expect "the file is as it was" same s.cfb before
expect "nothing is left" alone s.cfb before

# wrong use
run
expect "no word" fault 2 "a word is missing"
run frob s.cfb
expect "no such word" fault 2 "no word \`frob\`"
run cat s.cfb
expect "an operand is missing" fault 2 "missing"
run ls s.cfb s.cfb
expect "one too many" fault 2 "too many"
run ls -x s.cfb
expect "no such option" fault 2 "no option"
run new x --size
expect "a value is missing" fault 2 "missing"
run new x --size many
expect "no number" fault 2 "no number"
run new x --force=1
expect "a value too many" fault 2 "takes no value"
run resize s.cfb Site/log -- -5
expect "no length" fault 2 "LENGTH"
expect "still nothing is left" alone s.cfb before

# Help, check, ls, cat, info, put, append and resize.
run --help
expect "help" is_status 0
expect "help lists the words" grep -q "^  extract " "$dir/out"
expect "help has the statuses" grep -q "^  3  the system" "$dir/out"
run --version
expect "version" gives "cfb 0.1.0"
for word in check ls info map cat extract put append resize mk mkdir rm new repair pulses pulse; do
    run $word --help
    expect "help of $word" is_status 0
    expect "help of $word has its usage" grep -q "^usage: cfb $word " "$dir/out"
    run help $word
    expect "cfb help $word" grep -q "^usage: cfb $word " "$dir/out"
done

cp "$samples/site.cfb" "$samples/site4.cfb" "$samples/nested.cfb" .
run check site.cfb site4.cfb nested.cfb
expect "check" gives "site.cfb: ok\nsite4.cfb: ok\nnested.cfb: ok"
run ls site.cfb
expect "ls" gives "Site\nSite/log\nSite/Jets"
run ls -l site4.cfb
expect "ls -l" gives "D    0 Site\nF 5000 Site/log\nF   70 Site/Jets"
run cat site.cfb Site/Jets
expect "cat" [ "$(wc -c <"$dir/out")" -eq 70 ]
expect "cat begins" [ "$(head -n 1 "$dir/out")" = "jet 12 opens" ]
run cat site.cfb sITE/jETS
expect "cat in other letters" [ "$(wc -c <"$dir/out")" -eq 70 ]
run cat site4.cfb Site/log
expect "cat of version 4" [ "$(wc -c <"$dir/out")" -eq 5000 ]
run info site.cfb
expect "info" is_status 0
expect "info has the version" grep -qx "version            3" "$dir/out"
expect "info has the objects" grep -qx "objects            3" "$dir/out"

"$cfb" new w.cfb --size 64K >/dev/null
feed 'hello\n' put w.cfb note
expect "put makes a stream" done_quietly
expect "put has the bytes" holds w.cfb note 'hello\n'
feed 'x\0y' put w.cfb NOTE
expect "put replaces" holds w.cfb note 'x\0y'
feed 'z' append w.cfb note
expect "append" done_quietly
expect "append has the bytes" holds w.cfb note 'x\0yz'
run append w.cfb note
expect "append of nothing" done_quietly
run resize w.cfb note 2
expect "resize shorter" holds w.cfb note 'x\0'
run resize w.cfb note 5
expect "resize longer" holds w.cfb note 'x\0\0\0\0'
run resize w.cfb note 8K
expect "resize across the cutoff" done_quietly
run ls -l w.cfb
expect "its length" gives "F 8192 note"
run resize w.cfb note 1
expect "resize back" holds w.cfb note 'x'
run put w.cfb note
expect "put of nothing" holds w.cfb note ''
head -c 20000 /dev/urandom >random
"$cfb" put w.cfb large <random
"$cfb" cat w.cfb large >back
expect "20000 bytes come back" same random back

# what info counts as free is free, and no more
fact() { "$cfb" info "$1" | sed -n "s/^$2  *//p"; }
for major in 3 4; do
    "$cfb" new --force i.cfb --major $major --size 64K --mini 1000 >/dev/null
    printf 'x' | "$cfb" put i.cfb small
    "$cfb" mk i.cfb large
    bytes=$(($(fact i.cfb "free sectors") * $(fact i.cfb "sector bytes")))
    mini=$(($(fact i.cfb "free mini sectors") * 64))
    run resize i.cfb large $((bytes + 1))
    expect "a byte more than is free, version $major" refused 26
    run resize i.cfb large $bytes
    expect "all that is free, version $major" done_quietly
    run resize i.cfb small $((mini + 65))
    expect "a byte more in mini sectors, version $major" refused 26
    run resize i.cfb small $((mini + 64))
    expect "all mini sectors, version $major" done_quietly
    expect "nothing is free then, version $major" [ "$(fact i.cfb "free sectors") $(fact i.cfb "free mini sectors")" = "0 0" ]
done
rm i.cfb
expect "sound after all" sound w.cfb
expect "nothing is left" alone site.cfb site4.cfb nested.cfb w.cfb random back

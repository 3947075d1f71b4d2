# Two edits of one file at once: no line is lost.
"$cfb" new t.cfb --size 256K >/dev/null
"$cfb" mk t.cfb log
ln -s t.cfb alias
lines() {
    count=0
    while [ $count -lt 100 ]; do
        printf '%s %d\n' "$1" $count | "$cfb" append "$2" log || echo "$1 $count" >>failures
        count=$((count + 1))
    done
}
lines a t.cfb 2>>errors &
first=$!
lines b alias 2>>errors &
second=$!
while kill -0 $first 2>/dev/null || kill -0 $second 2>/dev/null; do
    sound t.cfb || echo unsound >>failures
done
wait $first $second
"$cfb" cat t.cfb log >log
status=0
expect "no edit was refused" [ ! -e failures ]
expect "every line is there once" [ "$(sort -u log | wc -l)" -eq 200 ]
expect "and no other" [ "$(wc -l <log)" -eq 200 ]
grep '^a ' log >a
expect "each one's lines in order" [ "$(sort -c -k2n a 2>&1)" = "" ]
expect "nothing is left" alone t.cfb alias log a errors

# an edit that does not end is not waited for without end
if command -v flock >/dev/null; then
    : >.t.cfb.cfb-new
    (
        exec 9<.t.cfb.cfb-new
        flock 9
        exec sleep 30
    ) &
    holder=$!
    sleep 0.2
    cp t.cfb before
    # on a terminal there is a line of progress meanwhile
    command -v script >/dev/null && script -qec "'$cfb' mk t.cfb other" /dev/null >shown 2>&1 </dev/null &
    shown=$!
    feed 'x' append t.cfb log
    expect "the second is refused in the end" fault 3 "another edit"
    expect "with one line" [ "$(wc -l <"$dir/err")" -eq 1 ]
    expect "and changes nothing" same t.cfb before
    wait $shown
    if command -v script >/dev/null; then
        expect "progress on a terminal" grep -q "waiting for another edit" shown
    fi
    kill $holder
    wait $holder 2>/dev/null
    feed 'x' append t.cfb log
    expect "then it is done" done_quietly
    expect "nothing is left then" [ ! -e .t.cfb.cfb-new ]
fi

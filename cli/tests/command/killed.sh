# 500 edits, each killed sooner or later: the file is the old or the new one, and sound.
"$cfb" new k.cfb --size 4M >/dev/null
# how long an edit takes, in microseconds: the kills are spread over half as long again
start=$(date +%s%N)
for number in 1 2 3 4 5 6 7 8 9 10; do
    printf 'try %d' $number | "$cfb" put k.cfb state
done
span=$((($(date +%s%N) - start) / 10000 * 3 / 2))
printf 'edit 0' | "$cfb" put k.cfb state

old=0
torn=0
killed=0
left=0
number=1
while [ $number -le 500 ]; do
    printf 'edit %d' $number >input
    "$cfb" put k.cfb state <input >/dev/null 2>&1 &
    edit=$!
    sleep "$(printf '%d.%06d' $((span * number / 500 / 1000000)) $((span * number / 500 % 1000000)))"
    kill -9 $edit 2>/dev/null
    wait $edit 2>/dev/null || killed=$((killed + 1))
    [ -e .k.cfb.cfb-new ] && left=$((left + 1))
    now=$("$cfb" cat k.cfb state)
    case $now in
        "edit $number") old=$number ;;
        "edit $old") ;;
        *) torn=$((torn + 1)) ;;
    esac
    sound k.cfb || torn=$((torn + 1))
    number=$((number + 1))
done
echo "killed: $killed of 500 edits, $left of them with the new file begun"
status=0
expect "no edit tears the file" [ $torn -eq 0 ]
expect "some were killed" [ $killed -gt 0 ]
expect "some were done" [ $old -gt 0 ]
feed 'last' put k.cfb state
expect "an edit after all" holds k.cfb state 'last'
expect "takes away what the killed ones left" alone k.cfb input

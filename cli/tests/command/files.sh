# Files of every kind, and where the output goes.
cp "$samples/site.cfb" s.cfb
run ls missing.cfb
expect "no file" fault 3 "missing.cfb: No such file"
feed 'x' put missing.cfb a
expect "no file to put to" fault 3 "missing.cfb: No such file"
: >empty.cfb
run ls empty.cfb
expect "an empty file" refused 1
mkdir folder
run ls folder
expect "a folder" fault 3 "a folder"
feed 'x' put folder a
expect "a folder to put to" fault 3 "a folder"
mkfifo pipe
run ls pipe
expect "a pipe" fault 3 "no regular file"
feed 'x' put pipe a
expect "a pipe to put to" fault 3 "no regular file"
run ls /dev/zero
expect "a device" fault 3 "no regular file"
truncate -s 67108865 large.cfb
run ls large.cfb
expect "a file that is too large" refused 1
truncate -s 1T large.cfb
feed 'x' put large.cfb a
expect "one that is far too large" refused 1
run check s.cfb empty.cfb missing.cfb s.cfb
expect "check of several" is_status 3
expect "check goes on" [ "$(tail -n 1 "$dir/out")" = "s.cfb: ok" ]
expect "check has a line for each that was read" [ "$(wc -l <"$dir/out")" -eq 3 ]
expect "check names the others" says "missing.cfb: No such file"
run check s.cfb empty.cfb
expect "check of a refused one" is_status 1

if [ -c /dev/full ]; then
    "$cfb" cat s.cfb Site/log >/dev/full 2>"$dir/err"
    status=$?
    expect "a full output" is_status 3
    expect "is said" says "standard output"
fi
"$cfb" new many.cfb --size 2M >/dev/null
head -c 1000000 /dev/zero | "$cfb" put many.cfb zeros
{
    "$cfb" cat many.cfb zeros 2>"$dir/err"
    echo $? >status
} | head -c 1 >"$dir/out"
status=$(cat status)
expect "a closed pipe ends it" is_status 3
expect "without a word" [ ! -s "$dir/err" ]
expect "nothing is left" alone s.cfb empty.cfb folder pipe large.cfb many.cfb status

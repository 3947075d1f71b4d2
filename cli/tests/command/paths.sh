# Every listed path can be given back.
"$cfb" new t.cfb >/dev/null
run mkdir t.cfb '\0001Ole'
expect "a name that does not print" done_quietly
for path in '\0001Ole/\0003ObjInfo' '\0001Ole/a b' 'ж' 'Ünder' '\FFFF' '\D83D' '-dash' "it's" '$HOME' '*'; do
    feed 'bytes' put t.cfb -- "$path"
    expect "put $path" done_quietly
done
"$cfb" ls t.cfb >listed
expect "eleven are listed" [ "$(wc -l <listed)" -eq 11 ]
expect "in ASCII" [ "$(LC_ALL=C tr -d '\n -~' <listed | wc -c)" -eq 0 ]
while IFS= read -r path; do
    if [ "$path" = '\0001Ole' ]; then continue; fi
    run cat t.cfb -- "$path"
    expect "cat $path" gives 'bytes'
done <listed
run cat t.cfb '\0436'
expect "the digits of a letter" gives 'bytes'
run cat t.cfb 'Ж'
expect "its capital" gives 'bytes'
run cat t.cfb '\00dcnder'
expect "small digits" gives 'bytes'
for path in '\' 'a\b' '\12' '\000g'; do
    run cat t.cfb "$path"
    expect "no path: $path" fault 2 "four digits"
done
run cat t.cfb "$(printf '\377')"
expect "no text" fault 2 "UTF-8"

# the completion knows them
if command -v bash >/dev/null; then
    PATH=$dir:$PATH bash -c '
        . "$1"
        compopt() { :; }
        COMP_WORDS=(cfb cat t.cfb "") COMP_CWORD=3
        _cfb
        printf "%s\n" "${COMPREPLY[@]}" | while IFS= read -r word; do eval "printf \"%s\n\" $word"; done
    ' bash "$completion" >"$dir/out" 2>"$dir/err"
    status=$?
    expect "completion of paths" same listed "$dir/out"
    bash -c '. "$1"; COMP_WORDS=(cfb re) COMP_CWORD=1; _cfb; echo "${COMPREPLY[@]}"' bash "$completion" >"$dir/out" 2>"$dir/err"
    expect "completion of words" prints "resize repair"
    bash -c '. "$1"; COMP_WORDS=(cfb new --s) COMP_CWORD=2; _cfb; echo "${COMPREPLY[@]}"' bash "$completion" >"$dir/out" 2>"$dir/err"
    expect "completion of options" prints "--size --sectors"
fi

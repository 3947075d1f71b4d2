# Files and folders without permission. Root may do anything, so another user is taken then.
cp "$samples/site.cfb" s.cfb
cp "$samples/site.cfb" secret.cfb
mkdir open
cp "$samples/site.cfb" open/s.cfb
if [ "$(id -u)" -eq 0 ]; then
    as="setpriv --reuid=65534 --regid=65534 --clear-groups"
    $as true 2>/dev/null || as=
    chown 65534:65534 . open open/s.cfb s.cfb secret.cfb
else
    as=env
fi
if [ -n "$as" ]; then
    chmod 444 open/s.cfb
    chmod 000 secret.cfb
    $as "$cfb" ls secret.cfb >"$dir/out" 2>"$dir/err"
    status=$?
    expect "a file that may not be read" fault 3 "ermission denied"
    printf 'x' | $as "$cfb" put open/s.cfb Site/Jets >"$dir/out" 2>"$dir/err"
    status=$?
    expect "a file that may not be written" fault 3 "ermission denied"
    expect "stays" same open/s.cfb "$samples/site.cfb"
    expect "nothing is left" [ "$(ls -A open)" = s.cfb ]
    chmod 644 open/s.cfb
    chmod 555 open
    printf 'x' | $as "$cfb" put open/s.cfb Site/Jets >"$dir/out" 2>"$dir/err"
    status=$?
    expect "a folder that may not be written" fault 3 "ermission denied"
    expect "leaves the file" same open/s.cfb "$samples/site.cfb"
    $as "$cfb" new open/n.cfb >"$dir/out" 2>"$dir/err"
    status=$?
    expect "new in such a folder" fault 3 "ermission denied"
    chmod 000 open
    $as "$cfb" check open/s.cfb >"$dir/out" 2>"$dir/err"
    status=$?
    expect "a folder that may not be entered" fault 3 "ermission denied"
    chmod 755 open
else
    echo "skipped: no other user can be taken"
fi

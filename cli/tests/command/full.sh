# A full disk leaves the old file, and no new one.
cp "$samples/site.cfb" s.cfb
cp s.cfb before

# a limit on the size of files
(
    ulimit -f 2
    printf 'x' | "$cfb" put s.cfb Site/Jets >"$dir/out" 2>"$dir/err"
    echo $? >status
)
status=$(cat status)
rm status
expect "a file that may not be so large" fault 3 "cannot write"
expect "the old file is whole" same s.cfb before
expect "no new file is left" alone s.cfb before

mkdir "$dir/small"
if mount -t tmpfs -o size=64k,mode=755 tmpfs "$dir/small" 2>/dev/null; then
    cp s.cfb "$dir/small/s.cfb"
    cd "$dir/small" || exit 3
    head -c 100000 /dev/zero >filler 2>/dev/null
    printf 'x' | "$cfb" put s.cfb Site/Jets >"$dir/out" 2>"$dir/err"
    status=$?
    expect "a full disk" fault 3 "No space left"
    expect "the old file is whole there" same s.cfb "$dir/full/before"
    expect "no new file is left there" alone s.cfb filler
    run new n.cfb --size 64K
    expect "new on a full disk" fault 3 "No space left"
    expect "leaves nothing" alone s.cfb filler
    rm filler
    head -c 40000 /dev/zero >filler
    run extract s.cfb out
    expect "extract on a small disk" is_status 0
    rm -r out
    head -c 100000 /dev/zero >filler 2>/dev/null
    run extract s.cfb out
    expect "extract on a full disk" is_status 3
    expect "takes its folder away" alone s.cfb filler
    rm filler
    feed 'y' put s.cfb Site/Jets
    expect "with room again" done_quietly
    cd "$dir" || exit 3
    umount "$dir/small"
else
    echo "skipped: a small disk cannot be mounted here"
fi

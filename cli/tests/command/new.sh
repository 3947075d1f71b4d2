# new.
run new a.cfb
expect "new" is_status 0
expect "it is sound" sound a.cfb
expect "it has a MiB" [ "$(wc -c <a.cfb)" -eq 1048576 ]
run ls a.cfb
expect "it is empty" done_quietly
cp a.cfb before
run new a.cfb
expect "new refuses to overwrite" fault 3 "--force"
run new a.cfb --size 2M
expect "and leaves the file" same a.cfb before
run new --force a.cfb --size 8K
expect "new --force" [ "$(wc -c <a.cfb)" -eq 8192 ]
run new b.cfb --major 4
run info b.cfb
expect "version 4" grep -qx "sector bytes       4096" "$dir/out"
run new c.cfb --major=4 --sectors 9 --entries 33 --mini 65
run info c.cfb
expect "sectors" grep -qx "sectors            9" "$dir/out"
expect "entries" grep -qx "blank entries      63" "$dir/out"
expect "mini sectors" grep -qx "free mini sectors  2" "$dir/out"
run new d.cfb --size 1536
expect "the smallest of version 3" sound d.cfb
run new e.cfb --size 12288 --major 4
expect "the smallest of version 4" sound e.cfb
run new f.cfb --size 64M
free=$(sed 's/.*, \([0-9]*\) free sectors/\1/' "$dir/out")
expect "the largest" sound f.cfb
expect "the largest has 64 MiB" [ "$(wc -c <f.cfb)" -eq 67108864 ]
run info f.cfb
expect "info goes through the DIFAT" grep -qx "free sectors       $free" "$dir/out"
rm f.cfb

run new x.cfb --size 1000
expect "no whole sector" refused 1
run new x.cfb --size 65M
expect "too large" refused 1
run new x.cfb --sectors 18446744073709551615
expect "far too many sectors" refused 1
run new x.cfb --size 1024
expect "too small" refused 1
run new x.cfb --major 5
expect "an unknown version" refused 32
run new x.cfb --entries 0
expect "no entries" refused 32
run new x.cfb --size 8K --mini 64K
expect "a mini stream that does not fit" refused 32
run new x.cfb --entries 18446744073709551615
expect "far too many entries" refused 32
run new x.cfb --size 8K --sectors 9
expect "size and sectors" fault 2 "not both"
run new no/x.cfb
expect "no such folder" fault 3 "no: No such file"
expect "the usual permissions" [ "$(umask 022 && "$cfb" new u.cfb >/dev/null && stat -c %a u.cfb)" = 644 ]
expect "nothing is left" alone a.cfb b.cfb before c.cfb d.cfb e.cfb u.cfb

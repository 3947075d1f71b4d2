# mk, mkdir and rm.
"$cfb" new o.cfb --entries 8 --size 64K >/dev/null
run mkdir o.cfb Site
expect "mkdir" done_quietly
run mk o.cfb Site/log
expect "mk" done_quietly
run mkdir o.cfb Site/old
run mk o.cfb Site/old/log
run mk o.cfb Site2
run ls -l o.cfb
expect "all are there" gives "D 0 Site\nF 0 Site/log\nD 0 Site/old\nF 0 Site/old/log\nF 0 Site2"

run rm o.cfb Site
expect "rm refuses a storage that is not empty" refused 28
run rm o.cfb Site/log
expect "rm of a stream" done_quietly
run rm -r o.cfb site
expect "rm -r, in other letters" done_quietly
run ls o.cfb
expect "all below is gone, and nothing else" gives "Site2"
run mkdir o.cfb Empty
run rm o.cfb Empty
expect "rm of an empty storage" done_quietly
run rm -r o.cfb Site2
expect "rm -r of a stream" done_quietly
run mkdir o.cfb Site
run mk o.cfb Site/log
cp o.cfb before
run rm -r o.cfb ''
expect "rm -r of the root" refused 31
expect "then everything stays" same o.cfb before

for number in 1 2 3 4 5; do
    run mk o.cfb $number
    expect "mk $number" done_quietly
done
run mk o.cfb 6
expect "no blank entry" refused 30
run info o.cfb
expect "info has no blank entry" grep -qx "blank entries      0" "$dir/out"
expect "nothing is left" alone o.cfb before
expect "sound" sound o.cfb

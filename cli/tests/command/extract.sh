# extract.
cp "$samples/site.cfb" s.cfb
run extract s.cfb out
expect "extract" gives "out: 2 files, 1 folder"
expect "a stream is a file" [ "$(wc -c <out/Site/log)" -eq 5000 ]
"$cfb" cat s.cfb Site/Jets >jets
expect "with its bytes" same out/Site/Jets jets
run extract s.cfb out
expect "an existing target" fault 3 "--force"
printf 'old' >out/Site/log
printf 'mine' >out/mine
run extract --force s.cfb out
expect "extract --force" is_status 0
expect "writes over files" [ "$(wc -c <out/Site/log)" -eq 5000 ]
expect "and leaves others" [ "$(cat out/mine)" = mine ]

# a link that leads out is not followed
mkdir outside
printf 'precious' >outside/log
rm -r out/Site && ln -s ../outside out/Site
run extract --force s.cfb out
expect "a folder's link is refused" fault 3 "no folder"
rm out/Site && mkdir out/Site && ln -s ../../outside/log out/Site/log
run extract --force s.cfb out
expect "a file's link is replaced" [ ! -L out/Site/log ]
expect "nothing outside was touched" [ "$(cat outside/log)" = precious ]

# names that lead out, or that a file system does not hold
"$cfb" new n.cfb >/dev/null
for path in .. ../etc . '\0005Summary' '\D800' 'a b' '\0436' 'CON'; do
    [ "$path" = .. ] && run mkdir n.cfb .. || run mk n.cfb "$path"
    expect "mk $path" done_quietly
done
mkdir deep
run extract n.cfb deep/out
expect "extract of odd names" is_status 0
expect "their files" [ "$(ls -A deep/out | LC_ALL=C sort | tr '\n' ' ')" = "$(printf '%s\n' '\002E' '\002E\002E' '\0005Summary' '\D800' 'a b' 'ж' CON | LC_ALL=C sort | tr '\n' ' ')" ]
expect "nothing beside the folder" [ "$(ls -A deep)" = out ]
expect "what is below" [ -f 'deep/out/\002E\002E/etc' ]

# a failure takes the folder away again
run extract s.cfb no/out
expect "no folder for the folder" fault 3 "no/out"
printf 'x' >plain
run extract --force s.cfb plain
expect "a file as target" fault 3 "plain"
run extract bad.cfb target
expect "no such file" fault 3 "bad.cfb"
expect "no target then" [ ! -e target ]

# Permissions stay; symbolic links are followed; a hard link keeps the old content.
cp "$samples/site.cfb" s.cfb
cp s.cfb before
chmod 640 s.cfb
feed 'x' put s.cfb Site/Jets
expect "permissions stay" [ "$(stat -c %a s.cfb)" = 640 ]
if [ "$(id -u)" -eq 0 ]; then
    chown 65534:65534 s.cfb
    feed 'xy' put s.cfb Site/Jets
    expect "root leaves the owner" [ "$(stat -c %u:%g s.cfb)" = 65534:65534 ]
fi
mkdir far
ln -s ../s.cfb far/link
feed 'by the link' put far/link Site/Jets
expect "put by a symbolic link" done_quietly
expect "the link stays" [ -L far/link ]
expect "the file has it" holds s.cfb Site/Jets 'by the link'
expect "nothing is left at the link" [ "$(ls -A far)" = link ]
ln before hard
feed 'new' put before Site/Jets
expect "a hard link keeps the old content" same hard "$samples/site.cfb"
expect "the file does not" holds before Site/Jets 'new'
ln -s nowhere dangling
run ls dangling
expect "a link to nothing" fault 3 "No such file"
run new dangling
expect "new at a link to nothing" fault 3 "there already"
run new --force dangling
expect "also with --force" is_status 3
expect "nothing was made there" [ ! -e nowhere ]
run new --force far/link --size 8K
expect "new --force by a link" [ "$(wc -c <s.cfb)" -eq 8192 ]
expect "keeps the permissions" [ "$(stat -c %a s.cfb)" = 640 ]

# a long name, and an edit of nothing
long=$(printf '%0250d' 7)
cp "$samples/site.cfb" "$long"
feed 'long' put "$long" Site/Jets
expect "a long name" holds "$long" Site/Jets 'long'
number=$(stat -c %i "$long")
feed 'long' put "$long" Site/Jets
expect "the same bytes again change no file" [ "$(stat -c %i "$long")" = "$number" ]

# what stands at the name of the new file is never written to
printf 'precious' >victim
cp "$samples/site.cfb" v.cfb
ln victim .v.cfb.cfb-new
feed 'x' put v.cfb Site/Jets
expect "a hard link in the way goes" holds v.cfb Site/Jets 'x'
expect "its file stays" [ "$(cat victim)" = precious ]
ln -s victim .v.cfb.cfb-new
feed 'y' put v.cfb Site/Jets
expect "a symbolic link in the way is refused" fault 3 ".v.cfb.cfb-new"
expect "its file stays, too" [ "$(cat victim)" = precious ]

# repair.
cp "$samples/site.cfb" r.cfb
run repair r.cfb
expect "repair of a sound file" is_status 0
cp r.cfb sound.cfb
run repair r.cfb
expect "a second repair" gives "r.cfb: nothing to repair"

# the FAT's last cell stands for no sector
printf '\005\0\0\0' | dd of=r.cfb bs=1 seek=1020 conv=notrunc 2>/dev/null
cp r.cfb bent.cfb
run check r.cfb
expect "check finds it" [ "$status" -eq 1 ]
expect "and says its number" grep -q "^r.cfb: refused 12: " "$dir/out"
run ls r.cfb
expect "ls refuses it" refused 12
feed 'x' put r.cfb Site/log
expect "put refuses it" refused 12
run repair -n r.cfb
expect "repair -n" gives "FAT cell 127: 5 -> free\nr.cfb: 1 change to make; nothing was written"
expect "repair -n writes nothing" same r.cfb bent.cfb
run repair r.cfb
expect "repair" gives "FAT cell 127: 5 -> free\nr.cfb: 1 change made"
expect "as it was before" same r.cfb sound.cfb

# the number that a header has at a place
field() { od -An -tu4 -j "$1" -N 4 r.cfb | tr -d ' '; }
# a red top of a tree, a FAT cell of a sector that nobody owns, and a mini FAT cell that stands for no mini sector
"$cfb" new --force r.cfb --size 8K --mini 64 >/dev/null
"$cfb" mk r.cfb log
cp r.cfb sound.cfb
red=$((512 * $(field 48) + 512 + 128 + 67))
unowned=$((512 * $(field 76) + 512 + 4 * 14))
mini=$((512 * $(field 60) + 512 + 4 * 100))
printf '\0' | dd of=r.cfb bs=1 seek=$red conv=notrunc 2>/dev/null
printf '\376\377\377\377' | dd of=r.cfb bs=1 seek=$unowned conv=notrunc 2>/dev/null
printf '\007\0\0\0' | dd of=r.cfb bs=1 seek=$mini conv=notrunc 2>/dev/null
run check r.cfb
expect "a red top" grep -q "refused 15" "$dir/out"
run repair r.cfb
expect "three kinds of change" gives "FAT cell 14: end of chain -> free\nmini FAT cell 100: 7 -> free\nentry 1 (log): colour red -> black\nr.cfb: 3 changes made"
expect "as it was before, too" same r.cfb sound.cfb

# a file that no repair settles
cp "$samples/documents/doc003-misread.cfb" m.cfb
run repair m.cfb
expect "a header is not repaired" refused 10
expect "and stays" same m.cfb "$samples/documents/doc003-misread.cfb"
printf 'x' >short.cfb
run repair short.cfb
expect "a bad length is not repaired" refused 1
expect "nothing is left" alone r.cfb sound.cfb bent.cfb m.cfb short.cfb

# what a repair would leave broken is not to be repaired: here a blank entry that is not blank, behind a cell that is mended
cp "$samples/programs/openmcdf-01.ole" left.cfb && chmod u+w left.cfb
run repair -n left.cfb
expect "repair of what it would leave broken" refused 14
expect "no second repair is advised" says "A repair would leave this broken"

# map, and check -v: they show what the library decides.
cp "$samples/site.cfb" "$samples/site4.cfb" "$samples/nested.cfb" .
run map site.cfb
expect "map" is_status 0
expect "map has the sectors" grep -qx "       0  FaMDaaaaaaTaaa" "$dir/out"
expect "map has the legend" grep -q "  a      10  Site/log" "$dir/out"
expect "map has no colours here" [ "$(tr -d '\033' <"$dir/out" | wc -c)" -eq "$(wc -c <"$dir/out")" ]
run map --svg site.svg site4.cfb
expect "map of version 4 as a picture" is_status 0
expect "the picture is svg" grep -q "^<svg " site.svg
cp site.cfb over.cfb
run map --svg over.cfb over.cfb
expect "a picture over its own file" [ "$status" -ne 0 ]
expect "the file is as it was" cmp -s site.cfb over.cfb

# the last cell of the FAT's sector names a sector that is not there: cell 127, at byte 512 + 508
cp site.cfb bent.cfb
printf '\001\002\003\000' | dd of=bent.cfb bs=1 seek=1020 conv=notrunc 2>/dev/null
run check bent.cfb
expect "a bent file" is_status 1
expect "its number" grep -q "^bent.cfb: .*12" "$dir/out"
run check -v bent.cfb
expect "check -v" is_status 1
expect "check -v has the place" grep -q "byte 1020 (3FC hex), sector 0, FAT cell 127" "$dir/out"
run check -v site.cfb
expect "check -v of a sound file" gives "site.cfb: ok"
run map bent.cfb
expect "map of a refused file" is_status 0
expect "map says what is wrong" grep -q "refused" "$dir/out"
echo nothing >text
run map text
expect "map of no compound file" [ "$status" -ne 0 ]
run map --svg text.svg text
expect "no picture of it" [ ! -e text.svg ]

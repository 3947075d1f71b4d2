# Nothing is left of it, and nothing else goes.
cd "$dir/installed" || exit 3
run "$top/tools/uninstall" "$dir/installed/plain"
expect "uninstall" gives "cfb is no longer installed in $dir/installed/plain"
expect "no file is left" [ "$(files plain)" -eq 0 ]
expect "its own folder is gone" [ ! -e plain/include/cfb ]
expect "the others stay" [ -d plain/lib/pkgconfig ]
run "$top/tools/uninstall" "$dir/installed/plain"
expect "uninstall once more" gives "cfb is no longer installed in $dir/installed/plain"
run "$top/tools/uninstall" "$dir/installed/never there"
expect "uninstall where nothing was" is_status 0
expect "it makes nothing there" [ ! -e "never there" ]

# files of others stay, and what is gone is not missed
space="with space/and more"
echo mine | tee "$space/bin/cfb2" "$space/lib/libcfb.so.2" "$space/lib/libcfb.so.$major.9" "$space/include/cfb/mine.h" >/dev/null
rm "$space/bin/cfb" "$space/lib/libcfb.so"
run "$top/tools/uninstall" "$dir/installed/$space"
expect "uninstall with a space" is_status 0
expect "it is silent about what is gone" silent
expect "files of others stay" equal "$(cd "$space" && find . ! -type d | LC_ALL=C sort)" "./bin/cfb2
./include/cfb/mine.h
./lib/libcfb.so.$major.9
./lib/libcfb.so.2"

run env DESTDIR="$dir/installed/stage d" "$top/tools/uninstall" /opt/rig
expect "uninstall below DESTDIR" is_status 0
expect "no file is left below DESTDIR" [ "$(files "stage d")" -eq 0 ]
run env PREFIX="$dir/installed/by environment" "$top/tools/uninstall"
expect "uninstall by PREFIX" [ "$(files "by environment")" -eq 0 ]
run "$top/tools/uninstall" relative/prefix
expect "uninstall of a relative prefix" [ "$(files relative)" -eq 0 ]

# another version of the same major version
"$top/tools/install" "$dir/installed/plain" >/dev/null
mv plain/lib/libcfb.so.$version plain/lib/libcfb.so.$major.0.0rc
ln -sf libcfb.so.$major.0.0rc plain/lib/libcfb.so.$major
run "$top/tools/uninstall" "$dir/installed/plain"
expect "uninstall of another version" [ "$(files plain)" -eq 0 ]

# What is put where, with which modes: plainly, with a space in the prefix, below DESTDIR, and more than once.
due="644 include/cfb/cfb.h
644 include/cfb/cfb_opened.h
644 include/cfb/pulse.h
644 lib/libcfb.a
644 lib/libcfb.so.$version
644 lib/pkgconfig/cfb.pc
644 share/bash-completion/completions/cfb
644 share/man/man1/cfb.1
755 bin/cfb
lib/libcfb.so -> libcfb.so.$major
lib/libcfb.so.$major -> libcfb.so.$version"

# installs PREFIX: what is installed now is all that is due, in folders that all may enter
installs() { is_status 0 && silent && equal "$(listed "$1")" "$due" && [ -z "$(find "$1" -type d ! -perm 755)" ]; }

mkdir plain
run "$top/tools/install" "$dir/installed/plain"
expect "install" installs plain
expect "install says where" prints "cfb $version is installed in $dir/installed/plain"
run "$top/tools/install" "$dir/installed/plain"
expect "install once more" installs plain
for header in cfb cfb_opened pulse; do
    expect "$header.h" cmp -s "$top/include/$header.h" plain/include/cfb/$header.h
done
expect "libcfb.a" cmp -s "$library" plain/lib/libcfb.a
expect "libcfb.so" cmp -s "$top/target/shared/libcfb.so" plain/lib/libcfb.so
expect "cfb" cmp -s "$cfb" plain/bin/cfb
expect "cfb.1" cmp -s "$page" plain/share/man/man1/cfb.1

run "$top/tools/install" "$dir/installed/with space/and more/"
expect "install to a prefix with a space" installs "with space/and more"
run env PREFIX="$dir/installed/by environment" "$top/tools/install"
expect "install by PREFIX" installs "by environment"
run "$top/tools/install" relative/prefix
expect "install to a relative prefix" installs relative/prefix
expect "it is whole in cfb.pc" grep -qx "prefix=$dir/installed/relative/prefix" relative/prefix/lib/pkgconfig/cfb.pc

mkdir "stage d"
run env DESTDIR="$dir/installed/stage d" "$top/tools/install" /opt/rig
expect "install below DESTDIR" installs "stage d/opt/rig"
expect "all of it is below DESTDIR" [ "$(files "stage d")" -eq 11 ]
expect "nothing outside" [ ! -e /opt/rig ]
expect "DESTDIR is not in cfb.pc" grep -qx "prefix=/opt/rig" "stage d/opt/rig/lib/pkgconfig/cfb.pc"

mkdir strict
(umask 077 && run "$top/tools/install" "$dir/installed/strict/below" && exit $status)
status=$?
expect "install with a strict umask" installs strict/below

# a file that a program has open is replaced, and not written to
ln plain/bin/cfb held
printf 'x' >>held
run "$top/tools/install" "$dir/installed/plain"
expect "a changed file is replaced" cmp -s "$cfb" plain/bin/cfb
expect "what was there is not written to" [ "$(wc -c <held)" -eq $(($(wc -c <"$cfb") + 1)) ]

# an older version goes, and one of another major version stays
mkdir -p upgraded/lib
printf 'x' | tee upgraded/lib/libcfb.so.$major.0.0rc >upgraded/lib/libcfb.so.0.9.9
ln -s libcfb.so.$major.0.0rc upgraded/lib/libcfb.so.$major
ln -s libcfb.so.0.9.9 upgraded/lib/libcfb.so.0
run "$top/tools/install" "$dir/installed/upgraded"
expect "an older version goes" [ ! -e upgraded/lib/libcfb.so.$major.0.0rc ]
expect "another major version stays" [ "$(cat upgraded/lib/libcfb.so.0)" = x ]
rm upgraded/lib/libcfb.so.0 upgraded/lib/libcfb.so.0.9.9
expect "all else is as it is due" installs upgraded

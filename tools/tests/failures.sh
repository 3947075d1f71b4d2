# Where it cannot be done, it is said, and the status is not 0.
# failing TEXT: status 1, and the text on standard error
failing() { is_status 1 && says "$1" && [ ! -s "$dir/out" ]; }

mkdir half
touch half/share
run "$top/tools/install" "$dir/failures/half"
expect "an install that fails half way says so" failing "tools/install: FAILED: $dir/failures/half has a part of it at most"
expect "no new file is left" [ -z "$(find half -name '.*.new')" ]
run "$top/tools/uninstall" "$dir/failures/half"
expect "what it has put there goes" [ "$(files half)" -eq 1 ]
mkdir -p taken/bin/cfb
run "$top/tools/install" "$dir/failures/taken"
expect "a folder in the command's place" failing "taken/bin/cfb is a folder"
expect "it is not written into" [ "$(files taken/bin)" -eq 0 ]
run "$top/tools/uninstall" "$dir/failures/taken"
expect "nor removed" [ -d taken/bin/cfb ]
run env CFB_LIB_DIR="$dir/nowhere" "$top/tools/install" "$dir/failures/nothing"
expect "no library" failing "$dir/nowhere/libcfb_c.a is not there"
expect "nothing is put there then" [ ! -e nothing ]
run env CFB_LIB_DIR="$dir/nowhere" "$top/tools/shared"
expect "no library for the shared one" failing "$dir/nowhere/libcfb_c.a is not there"
for wrong in 'a"b' 'a$b' 'a\b' "a'b" 'a#b'; do
    run "$top/tools/install" "$dir/failures/$wrong"
    expect "the prefix $wrong" failing "PREFIX has"
done
for words in "a b" --help -x; do
    run "$top/tools/install" $words
    expect "install $words" is_status 2
    run "$top/tools/uninstall" $words
    expect "uninstall $words" is_status 2
done

# a copy of the repository in which something is not built, or cannot be
mkdir -p copy/target copy/cli/target/release
cp -R "$top/VERSION" "$top/include" "$top/tools" copy
cp "$top/cli/cfb.1" "$top/cli/completion.bash" copy/cli
cp "$cfb" "$cfb.made-of" copy/cli/target/release
export CFB_LIB_DIR="$(dirname "$library")"
run copy/tools/install "$dir/failures/built"
expect "what is missing is built" is_status 0
expect "and installed" [ -e built/lib/libcfb.so ]
expect "and it is said" says "building the shared library"
run copy/tools/install "$dir/failures/built"
expect "what is there is not built again" gives "cfb $version is installed in $dir/failures/built"
cksum <"$page" >"copy/target/shared/libcfb.so.$version.made-of"
run copy/tools/install "$dir/failures/built"
expect "what is made of another library is built anew" says "building the shared library"
if [ "$(id -u)" -eq 0 ]; then
    chown 65534 copy
    run copy/tools/install "$dir/failures/by root"
    expect "root installs what somebody else has built" gives "cfb $version is installed in $dir/failures/by root"
    chown 0 copy
fi
rm copy/cli/target/release/cfb
run copy/tools/install "$dir/failures/unbuilt"
expect "what cannot be built" failing "the command was not built; nothing is installed"
expect "nothing is installed then" [ ! -e unbuilt ]
sed 's/^void cfb_close(/void cfb_shut(/' "$top/include/cfb_opened.h" >copy/include/cfb_opened.h
run copy/tools/shared
expect "a call that the library does not have" [ "$status" -ne 0 ]
expect "is named" says cfb_shut
if [ "$(id -u)" -eq 0 ]; then
    chown 65534 copy
    run copy/tools/install "$dir/failures/others"
    expect "root builds nothing in a folder of somebody else" failing "the owner of this folder builds it first"
    expect "and installs nothing" [ ! -e others ]
else
    left="$left    that root builds nothing in a folder of somebody else: this is not root
"
fi

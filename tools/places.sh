# What is installed where. tools/install and tools/uninstall read it with the words that they were given; then they stand
# in the repository.

# fail TEXT: the end of the program
fail() {
    echo "$program: $1" >&2
    exit 1
}

case $#,$1 in
    0, | 1,[!-]*) ;;
    *) echo "usage: $program [PREFIX]" >&2; exit 2 ;;
esac
prefix=${1:-${PREFIX:-/usr/local}}
# A relative name is meant from where the user stands.
case $prefix in /*) ;; *) prefix=$(pwd)/$prefix ;; esac
case $DESTDIR in /* | '') ;; *) DESTDIR=$(pwd)/$DESTDIR ;; esac
prefix=${prefix%/}
# What pkg-config could not read back.
case $prefix in
    *[\"\'\\\$\#\`]* | *'
'*) fail "PREFIX has a quote, a backslash, one of \$ # \` or a new line in it" ;;
esac
target=$DESTDIR$prefix

cd "$(dirname "$0")/.."
version=$(cat VERSION)
major=${version%%.*}
library=${CFB_LIB_DIR:-crates/cfb_c/out}/libcfb_c.a
binary=cli/target/release/cfb
shared=target/shared/libcfb.so.$version

# Every file: its mode (or that it is a link), its place below the prefix, and where it comes from.
files() {
    cat <<END
644 include/cfb/cfb.h include/cfb.h
644 include/cfb/cfb_opened.h include/cfb_opened.h
644 include/cfb/pulse.h include/pulse.h
644 lib/libcfb.a $library
644 lib/libcfb.so.$version $shared
link lib/libcfb.so.$major libcfb.so.$version
link lib/libcfb.so libcfb.so.$major
644 lib/pkgconfig/cfb.pc $temporary/cfb.pc
755 bin/cfb $binary
644 share/man/man1/cfb.1 cli/cfb.1
644 share/bash-completion/completions/cfb cli/completion.bash
END
}

# older: the file of an older version that the link of the soname names, where there is one
older() {
    named=$(readlink "$target/lib/libcfb.so.$major") || return 0
    case $named in
        */* | "libcfb.so.$version") ;;
        "libcfb.so.$major".*) echo "lib/$named" ;;
    esac
}

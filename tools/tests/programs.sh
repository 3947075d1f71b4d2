# Programs find the library by pkg-config, and do with it what they should.
plain=$dir/installed/plain
spaced="$dir/installed/with space/and more"
flags="-O2 -Wall -Wextra -Wpedantic -Werror"

listing="objects 3
D 0 Site
F 5000 Site/log
F 70 Site/Jets"
line="line 7 of the site's log"
first_due="$listing
the last of 5000 bytes:
he site's log
$line
$line
the last of 5004 bytes:
ite's log
$line
$line
end"
opened_due="bytes add up to 419200
$listing
200 lines in 5000 bytes
201 lines in 5004 bytes
valid"
# sectors of 512 bytes have room for 15 pulses behind the text, those of 4,096 for 399
pulses_due_site="kept 15 pulses of 8589934915 ticks behind 4984 bytes"
pulses_due_site4="kept 399 pulses of 8590173187 ticks behind 4984 bytes"
cpp_due="$listing
5000 bytes, then 5004:
$line
end"

# due PROGRAM SAMPLE: what it must print
due() {
    case $1,$2 in
        *.cc,*) echo "$cpp_due" ;;
        first,*) echo "$first_due" ;;
        opened,*) echo "$opened_due" ;;
        pulses,site) echo "$pulses_due_site" ;;
        pulses,site4) echo "$pulses_due_site4" ;;
    esac
}

# compile FLAGS SOURCE LIBS: C11, or C++17 for a source that ends so; pkg-config quotes what the shell would take apart
compile() {
    rm -f program
    case $2 in
        *.cc) eval "run \"${CXX:-g++}\" -std=c++17 $flags $1 -o program \"\$2\" $3" ;;
        *) eval "run \"${CC:-cc}\" -std=c11 $flags $1 -o program \"\$2\" $3" ;;
    esac
}

# needs: whether the program needs the shared library
needs() { readelf -d program | grep -q "(NEEDED).*\[libcfb\.so\.$major\]"; }
needs_not() { ! needs; }

# try NAME HOW PREFIX: compiles and runs a program with what pkg-config says of this prefix
try() {
    source=$top/bindings/c/$1.c
    case $1 in *.cc) source=$top/bindings/cpp/$1 ;; esac
    export PKG_CONFIG_PATH="$3/lib/pkgconfig"
    case $2 in
        shared) compile "$(pkg-config --cflags cfb)" "$source" "$(pkg-config --libs cfb)" ;;
        # all of the program without shared libraries
        static) compile "-static $(pkg-config --cflags cfb)" "$source" "$(pkg-config --static --libs cfb)" ;;
        # the library alone
        archive) compile "$(pkg-config --cflags cfb)" "$source" "\"\$(pkg-config --variable=libdir cfb)/libcfb.a\"" ;;
    esac
    expect "$1, $2: compiles without a warning" gives ""
    case $2 in
        shared) expect "$1, $2: needs libcfb.so.$major" needs ;;
        *) expect "$1, $2: needs no libcfb.so" needs_not ;;
    esac
    for sample in site site4; do
        case $2 in
            shared) run env LD_LIBRARY_PATH="$3/lib" ./program "$top/samples/$sample.cfb" ;;
            *) run ./program "$top/samples/$sample.cfb" ;;
        esac
        expect "$1, $2: $sample.cfb" gives "$(due "$1" $sample)"
    done
}

if has pkg-config "programs that are compiled by pkg-config"; then
    export PKG_CONFIG_PATH="$plain/lib/pkgconfig"
    run pkg-config --validate cfb
    expect "cfb.pc is valid" gives ""
    run pkg-config --modversion cfb
    expect "its version" gives "$version"
    run pkg-config --cflags --libs cfb
    expect "its flags" [ "$(echo $(cat "$dir/out"))" = "-I$plain/include/cfb -L$plain/lib -lcfb" ]
    run pkg-config --static --cflags --libs cfb
    expect "its flags, static" [ "$(echo $(cat "$dir/out"))" = "-I$plain/include/cfb -L$plain/lib -lcfb" ]
    PKG_CONFIG_PATH="$dir/installed/stage d/opt/rig/lib/pkgconfig" run pkg-config --define-variable=prefix=/moved --libs cfb
    expect "its prefix can be moved" [ "$(echo $(cat "$dir/out"))" = "-L/moved/lib -lcfb" ]

    for how in shared static archive; do
        for program in first opened pulses; do
            try $program $how "$plain"
        done
    done
    try first shared "$spaced"
    try first archive "$spaced"
    if has "${CXX:-g++}" "the program in C++"; then
        try first.cc shared "$plain"
        try first.cc static "$plain"
        try first.cc archive "$spaced"
    fi

    # the block for CMake in docs/INSTALL.md
    if has cmake "the lines for CMake"; then
        mkdir cmake
        cp "$top/bindings/cpp/first.cc" cmake
        awk '/^```cmake$/ { on = 1; next } /^```$/ { on = 0 } on' "$top/docs/INSTALL.md" >cmake/CMakeLists.txt
        PKG_CONFIG_PATH="$plain/lib/pkgconfig" run cmake -S cmake -B cmake/made
        expect "cmake finds it" is_status 0
        run cmake --build cmake/made
        expect "cmake builds with it" is_status 0
        run env LD_LIBRARY_PATH="$plain/lib" cmake/made/first "$top/samples/site.cfb"
        expect "what cmake built" gives "$cpp_due"
    fi
    # and the one for Meson
    if has meson "the lines for Meson"; then
        mkdir meson
        cp "$top/bindings/cpp/first.cc" meson
        awk '/^```meson$/ { on = 1; next } /^```$/ { on = 0 } on' "$top/docs/INSTALL.md" >meson/meson.build
        PKG_CONFIG_PATH="$plain/lib/pkgconfig" run meson setup meson/made meson
        expect "meson finds it" is_status 0
        run ninja -C meson/made
        expect "meson builds with it" is_status 0
        run env LD_LIBRARY_PATH="$plain/lib" meson/made/first "$top/samples/site.cfb"
        expect "what meson built" gives "$cpp_due"
    fi
fi

# the installed command
cp "$top/samples/site.cfb" "$top/samples/site4.cfb" .
run "$spaced/bin/cfb" check site.cfb site4.cfb
expect "the installed cfb checks" gives "site.cfb: ok
site4.cfb: ok"
run "$spaced/bin/cfb" ls -l site.cfb
expect "the installed cfb lists" gives "D    0 Site
F 5000 Site/log
F   70 Site/Jets"
run "$plain/bin/cfb" --version
expect "the installed cfb's version" gives "cfb $version"
expect "the installed cfb needs no libcfb.so" equal "$(readelf -d "$plain/bin/cfb" | grep 'NEEDED.*libcfb')" ""
if has bash "the completion"; then
    run bash -c '. "$1"; COMP_WORDS=(cfb re) COMP_CWORD=1; _cfb; echo "${COMPREPLY[@]}"; complete -p cfb' bash \
        "$plain/share/bash-completion/completions/cfb"
    expect "the installed completion" gives "resize repair
complete -F _cfb cfb"
fi
if has man "whether man finds the page"; then
    run man -M "$plain/share/man" -w cfb
    expect "man finds the page" gives "$plain/share/man/man1/cfb.1"
    run man -M "$spaced/share/man" cfb
    expect "man shows the page" grep -q "check, list, read, edit and repair compound files" "$dir/out"
fi

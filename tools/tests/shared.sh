# The shared library: what it exports, what it needs, and how it is loaded.
so=$top/target/shared/libcfb.so.$version

# The calls of the headers as the compiler reads them, without comments and macros.
declared=$(cat "$top/include/cfb.h" "$top/include/cfb_opened.h" "$top/include/pulse.h" | ${CC:-cc} -E -P -I"$top/include" -x c - |
    grep -Eo '\b(cfb|pulse)_[a-z_]+ ?\(' | tr -d ' (' | LC_ALL=C sort -u)
expect "the headers have calls" [ "$(echo $declared | wc -w)" -ge 26 ]
expect "it exports the calls and nothing else" equal "$(nm -D --defined-only "$so" | awk '{ print $3 }' | LC_ALL=C sort)" "$declared"
# what is weak need not be there
expect "it needs names of libc alone" equal "$(nm -D --undefined-only "$so" | awk '$1 != "w" && $2 !~ /@GLIBC_/')" ""
readelf -dW "$so" >"$dir/out" 2>"$dir/err"
expect "its soname" grep -q "(SONAME).*\[libcfb\.so\.${version%%.*}\]" "$dir/out"
expect "it needs no library but libc" equal "$(sed -n 's/.*(NEEDED).*\[\(.*\)\]/\1/p' "$dir/out" | grep -vx 'libc\.so\..*')" ""
has_none() { ! grep -q "$1" "$2"; }
expect "no text relocations" has_none TEXTREL "$dir/out"
expect "no path of its own" has_none 'R.*PATH' "$dir/out"
readelf -lW "$so" >"$dir/out" 2>"$dir/err"
expect "its stack is not executable" grep -q 'GNU_STACK.* RW ' "$dir/out"
expect "nothing is writable and executable" has_none 'LOAD.*RWE' "$dir/out"

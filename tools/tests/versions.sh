# One version everywhere.
numbers() { printf '%s\n' "$1" | grep -Eqx '[0-9]+\.[0-9]+\.[0-9]+'; }
expect "VERSION is three numbers" numbers "$version"
for crate in bindings/rust cli; do
    expect "$crate/Cargo.toml" equal "$(sed -n 's/^version = "\(.*\)"$/\1/p' "$top/$crate/Cargo.toml")" "$version"
    for name in gyomrelas cfb-cli; do
        locked=$(sed -n "/^name = \"$name\"/{n;s/^version = \"\\(.*\\)\"\$/\\1/p;}" "$top/$crate/Cargo.lock")
        [ $crate$name = bindings/rustcfb-cli ] || expect "$name in $crate/Cargo.lock" equal "$locked" "$version"
    done
done
expect "the manual page" equal "$(sed -n 's/^\.TH CFB 1 [0-9-]* "cfb \(.*\)" .*/\1/p' "$page")" "$version"
project=$top/bindings/python/pyproject.toml
if [ -f "$project" ]; then
    expect "pyproject.toml" equal "$(sed -n 's/^version = "\(.*\)"$/\1/p' "$project")" "$version"
else
    left="$left    the version of the Python package: there is none
"
fi
run "$cfb" --version
expect "cfb --version" gives "cfb $version"

# What the tests of the installation are written with.
passed=0
failed=0
status=0
left=

# run WORDS..: runs a program with nothing on standard input; status, out and err are kept
run() {
    "$@" </dev/null >"$dir/out" 2>"$dir/err"
    status=$?
}

# expect NAME CONDITION..: a test passes where the condition does
expect() {
    name=$1
    shift
    if "$@"; then
        passed=$((passed + 1))
    else
        failed=$((failed + 1))
        echo "FAILED: $name (status $status)"
        sed 's/^/    out: /' "$dir/out" | head -5
        sed 's/^/    err: /' "$dir/err" | head -5
    fi
}

# has PROGRAM TESTS: whether a program is there; where it is not, these tests are left out
has() {
    command -v "$1" >/dev/null 2>&1 && return
    left="$left    $2: there is no $1
"
    return 1
}

# What the last run gave.
is_status() { [ "$status" -eq "$1" ]; }
prints() { [ "$(cat "$dir/out")" = "$1" ]; }
silent() { [ ! -s "$dir/err" ]; }
says() { grep -qF -- "$1" "$dir/err"; }

# gives TEXT: status 0, this output and no errors
gives() { is_status 0 && prints "$1" && silent; }

# equal A B: two texts; where they differ, it shows how
equal() {
    [ "$1" = "$2" ] && return
    printf '%s\n' "$1" >"$dir/a"
    printf '%s\n' "$2" >"$dir/b"
    diff "$dir/a" "$dir/b" >"$dir/out"
    false
}

# listed FOLDER: every file with its mode, and every link with what it names
listed() {
    (cd "$1" && find . -type f -printf '%m %P\n' -o -type l -printf '%P -> %l\n' | LC_ALL=C sort)
}

# files FOLDER: how many things that are no folders are below it
files() { find "$1" ! -type d | wc -l; }

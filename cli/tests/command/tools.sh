# What the tests of the command are written with.
passed=0
failed=0

# run WORDS..: runs the command with nothing on standard input; status, out and err are kept
run() {
    "$cfb" "$@" </dev/null >"$dir/out" 2>"$dir/err"
    status=$?
}

# feed TEXT WORDS..: the same with a text on standard input, which printf understands
feed() {
    text=$1
    shift
    printf "$text" | "$cfb" "$@" >"$dir/out" 2>"$dir/err"
    status=$?
}

# expect NAME CONDITION..: a test passes where the condition does
expect() {
    name=$1
    shift
    if "$@"; then
        passed=$((passed + 1))
    else
        failed=$((failed + 1))
        echo "FAILED: $name (status $status)"
        sed 's/^/    out: /' "$dir/out" | head -5
        sed 's/^/    err: /' "$dir/err" | head -5
    fi
}

# What the last run gave.
is_status() { [ "$status" -eq "$1" ]; }
prints() { [ "$(cat "$dir/out")" = "$(printf -- "$1")" ]; }
quiet() { [ ! -s "$dir/out" ] && [ ! -s "$dir/err" ]; }
says() { grep -qF -- "$1" "$dir/err"; }

# done_quietly: status 0 and not a word
done_quietly() { is_status 0 && quiet; }

# gives TEXT: status 0, this output and no errors
gives() { is_status 0 && prints "$1" && [ ! -s "$dir/err" ]; }

# refused NUMBER: status 1, the number on standard error with a line on what can be done, nothing on standard output
refused() { is_status 1 && says "refused $1: " && [ "$(wc -l <"$dir/err")" -eq 2 ] && [ ! -s "$dir/out" ]; }

# fault STATUS TEXT: this status, and the text on standard error
fault() { is_status "$1" && says "$2" && [ ! -s "$dir/out" ]; }

# sound FILE: the command finds it so
sound() { "$cfb" check "$1" >/dev/null 2>&1; }

# holds FILE PATH TEXT: the stream has exactly these bytes
holds() { [ "$("$cfb" cat "$1" "$2" | od -An -v -tx1)" = "$(printf "$3" | od -An -v -tx1)" ]; }

# alone NAMES..: the folder has exactly these files, hidden ones too
alone() { [ "$(ls -A | sort | tr '\n' ' ')" = "$(printf '%s\n' "$@" | sort | tr '\n' ' ')" ]; }

# same A B: the files are equal to the last byte
same() { cmp -s "$1" "$2"; }

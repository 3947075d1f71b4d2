# Comparing what a program reads with what is due.
passed=0
failed=0
export cfb seven gsf PYTHONDONTWRITEBYTECODE=1

# expect NAME CONDITION..: a test passes where the condition does; why not is in the log
expect() {
    what=$1
    shift
    if "$@" >"$dir/log" 2>&1; then
        passed=$((passed + 1))
    else
        failed=$((failed + 1))
        echo "FAILED: $what"
        head -5 "$dir/log" | cut -c 1-200 | sed 's/^/    /'
    fi
}

# read_by READER FILE OUT [NAMES]
read_by() { rm -rf "$3" && "$python" "$peers/read.py" "$@"; }

# alike READER DUE FOUND: the same objects, and the same bytes in every stream. Of gsf's list the kinds are left out, and of
# its tree what has no bytes: a storage with nothing in it is a stream of no bytes to it.
alike() {
    if [ "$1" != gsf ]; then
        diff "$2/list" "$3/list" && diff -r "$2/tree" "$3/tree"
        return
    fi
    rm -rf "$dir/full" && cp -r "$2" "$dir/full" && find "$dir/full/tree" "$3/tree" -mindepth 1 -empty -delete
    for each in "$dir/full/list" "$3/list"; do
        cut -d ' ' -f 2- "$each" | sort >"$each.sizes"
    done
    diff "$dir/full/list.sizes" "$3/list.sizes" && diff -r "$dir/full/tree" "$3/tree"
}

# same_by READER FILE DUE: the program reads from the file what is due
same_by() { read_by "$1" "$2" "$dir/found" "$3/names" && alike "$1" "$3" "$dir/found"; }

# minor FILE: the minor version, in hex. 7-Zip opens no file in which it is other than 3E; no rule asks for that.
minor() { od -An -tx1 -j 24 -N 1 "$1" | tr -d ' '; }

# readable READER FILE: the file, or for 7-Zip a copy with that one byte changed
readable() {
    if [ "$1" = seven ] && [ "$(minor "$2")" != 3e ]; then
        cp "$2" "$dir/minor.cfb" && chmod u+w "$dir/minor.cfb"
        printf '\076' | dd of="$dir/minor.cfb" bs=1 seek=24 conv=notrunc 2>/dev/null
        echo "$dir/minor.cfb"
    else
        echo "$2"
    fi
}

# streams FOLDER, bytes FOLDER: how many streams are in a tree, and how many bytes in these
streams() { find "$1/tree" -type f | wc -l; }
bytes() { find "$1/tree" -type f -printf '%s\n' | awk '{ sum += $1 } END { print sum + 0 }'; }

# compared PART NAME FILE DUE: asks every program, and keeps the figures
compared() {
    for reader in $readers; do
        before=$failed
        read_file=$(readable "$reader" "$3")
        expect "$2 as $reader reads it" same_by "$reader" "$read_file" "$4"
        verdict=$([ "$read_file" = "$3" ] && echo same || echo copy)
        [ "$failed" -eq "$before" ] || verdict=differs
        [ "$verdict" != copy ] || echo "    $reader does not open minor version $(minor "$3"), and read a copy with 3e"
        echo "$1 $reader $(streams "$4") $(bytes "$4") $verdict" >>"$dir/figures"
    done
}

# The second part: files of other programs, read by the command and by others.
written=$dir/written

part_theirs() {
    . "$peers/writers.sh"
    write_all
    for file in "$written"/*.* "$samples"/*.ole "$samples"/*.msi ${more:+"$more"/*.*}; do
        name=$(basename "$file")
        case $name in *.md | \**) continue ;; esac
        # the folder may have the samples, too
        [ "$file" != "$more/$name" ] || ! cmp -s "$file" "$samples/$name" || continue
        judged "$file" "$name"
    done
    [ -z "$olefile" ] || expect "streams that olefile writes over" written_over
}

# judged FILE NAME: what an accepted file holds is compared, and of a refused one number and place are told
judged() {
    if "$cfb" check "$1" >/dev/null 2>&1; then
        echo "$2: ok"
        accepted "$1" "$2" "$1" theirs
        return
    fi
    "$cfb" check -v "$1" 2>&1 | sed "1s|^.*: refused|refused|; 1s|: .*||" | paste -s -d '|' | sed "s|^|$2: |; s/|  /: /g"
    expect "$2 is refused by all words alike" refused_alike "$1"
    echo "    read by:$(others "$1")"
    repairable "$1" "$2"
}

# others FILE: the programs that read a refused file without an error
others() {
    for reader in $readers; do
        ! read_by "$reader" "$1" "$dir/found" >/dev/null 2>&1 || printf ' %s' "$reader"
    done
}

# accepted FILE NAME ORIGINAL PART: what the command extracts from a file is what the programs read from the original
accepted() {
    expect "$2 as cfb reads it" ours_of "$1"
    compared "$4" "$2" "$3" "$dir/due"
}
ours_of() { read_by cfb "$1" "$dir/due" && cut -d ' ' -f 3- "$dir/due/list" >"$dir/due/names"; }

# refused_alike FILE: check, ls and extract give one number and status 1, and nothing is left behind
refused_alike() {
    number=$("$cfb" check "$1" | sed -n 's/.*: refused \([0-9]*\): .*/\1/p')
    for word in ls extract; do
        out=$([ $word = ls ] || echo "$dir/never")
        "$cfb" $word "$1" $out 2>"$dir/err" && return 1
        [ $? -eq 1 ] && grep -q ": refused $number: " "$dir/err" || return 1
    done
    [ ! -e "$dir/never" ]
}

# repairable FILE NAME: where a repair is promised it is made on a copy, which must hold what the programs read from the original
repairable() {
    cp "$1" "$dir/copy.cfb" && chmod u+w "$dir/copy.cfb"
    if "$cfb" repair -n "$dir/copy.cfb" >"$dir/promised" 2>"$dir/err"; then
        echo "    can be repaired: $(tail -1 "$dir/promised" | sed 's/^.*: //')"
        expect "$2 is repaired" repaired "$dir/copy.cfb"
        accepted "$dir/copy.cfb" "$2, repaired," "$1" repaired
    else
        echo "    cannot be repaired: $(sed -n '1s/^.*: refused \([0-9]*\): .*/refused \1/p' "$dir/err")"
        expect "$2 stays as it was" cmp "$1" "$dir/copy.cfb"
    fi
}
repaired() { "$cfb" repair "$1" && "$cfb" check "$1"; }

# olefile can write over a stream of sectors: the command must read what it wrote, and find the file sound
written_over() {
    cp "$dir/ours3.cfb" "$dir/over.cfb" && cp -r "$dir/ours3" "$dir/over" || return
    for path in Site/Pumps/Nord/Deep/s300000 Site/Pumps/Nord/Deep/s4096 Edits/grown; do
        noise "$(wc -c <"$dir/over/tree/$path")" >"$dir/part" && cp "$dir/part" "$dir/over/tree/$path" || return
        "$python" "$peers/write_in_place.py" "$dir/over.cfb" "$path" "$dir/part" || return
    done
    our_own over
}

# The first part: files of the command, read by other programs.

# Streams on each side of a mini sector's, a sector's and the cutoff's length, in storages in storages.
fill_sizes() {
    do_mkdir Site && do_mkdir Site/Pumps && do_mkdir Site/Pumps/Nord && do_mkdir Site/Pumps/Nord/Deep || return
    for size in 1 63 64 65 511 512 513 4095 4096 4097 5120 5121 20000 131072 300000; do
        do_put "Site/Pumps/Nord/Deep/s$size" "$size" || return
    done
    do_mk "Site/empty" && do_mkdir "Site/Pumps/nothing in it"
}

# Names in other letters, names with characters that do not print, names of one and of 31 characters.
fill_names() {
    do_mkdir 'S\00FCd' && do_put 'S\00FCd/\0436\0443\0440\043D\0430\043B' 700 && do_put 'S\00FCd/\3042\4E2D' 5000 &&
        do_put '\0005SummaryInformation' 400 && do_put '\0001Ole' 20 && do_put '\D83D\DE00 b' 64 && do_mk '\007F\0085' &&
        do_put 'a*?<>|"b' 65 && do_put ' lead and end ' 10 && do_put 'end.' 11 && do_put '%41' 13 &&
        do_put '\00DFabcdefghijklmnopqrstuvwxyz1234' 4096 && do_mkdir 'x' && do_put 'x/x' 1 && do_put 'x/-dash' 12
}

# Streams that grow, are cut, go over the cutoff and come back; the last is typed in other letters than its name.
fill_edits() {
    do_mkdir Edits && do_put Edits/log 100 && do_append Edits/log 5000 && do_append Edits/log 77 &&
        do_put Edits/cut 9000 && do_resize Edits/cut 33 && do_put Edits/grown 50 && do_resize Edits/grown 70000 &&
        do_mk Edits/filled && do_append Edits/filled 4095 && do_append Edits/filled 1 &&
        do_put Edits/none 5000 && do_resize Edits/none 0 && do_put Edits/again 6000 && do_put Edits/again 60 &&
        noise 333 >"$due/tree/Edits/log" && "$cfb" put "$made" EDITS/Log <"$due/tree/Edits/log" &&
        noise 12 >"$due/tree/S\\00FCd/\\0436\\0443\\0440\\043D\\0430\\043B" &&
        "$cfb" put "$made" 'SÜD/ЖУРНАЛ' <"$due/tree/S\\00FCd/\\0436\\0443\\0440\\043D\\0430\\043B"
}

# Many objects, of which some go again: single streams, and storages with all that is below them.
fill_many() {
    for storage in a b c d e f; do
        do_mkdir "rig $storage" && do_mkdir "rig $storage/in" || return
        for number in 1 2 3 4 5 6 7 8 9; do
            do_put "rig $storage/valve$number" $((number * number * 97)) && do_put "rig $storage/in/$number" $((number * 600)) || return
        done
    done
    do_rm 'rig a/valve5' && do_rm 'rig b/in/7' && do_rm_r 'rig c' && do_rm_r 'rig d/in' && do_mkdir 'rig d/in' &&
        do_put 'rig d/in/new' 4444 && do_rm 'Site/Pumps/nothing in it' && do_mkdir 'Site/none' &&
        do_put 'rig e/valve1' 8000 && do_rm 'rig f/valve9'
}

fill_pulses() {
    do_pulses Edits/pulses 4000 1:1 2:25 65535:4294967295 3:400 4:5 12:25 12:26 12:27 12:28 12:29 7:3000000000 && do_pulses 'p' 0 1:2
}

# filled NAME OPTION..: a file with all of it
filled() { begin "$@" && fill_sizes && fill_names && fill_edits && fill_many && fill_pulses && end; }

# our_own NAME: the command itself finds the file sound, and lists and extracts what is due
our_own() { "$cfb" check "$dir/$1.cfb" && same_by cfb "$dir/$1.cfb" "$dir/$1"; }

part_ours() {
    strict=yes
    export strict
    for name in ours3 ours4; do
        expect "$name is made" filled "$name" --major "${name#ours}" --size 4M
        expect "$name as cfb reads it" our_own "$name"
        compared ours "$name" "$dir/$name.cfb" "$dir/$name"
        echo "$name: $(wc -c <"$dir/$name.cfb") bytes, $(wc -l <"$dir/$name/list") objects, $(streams "$dir/$name") streams of $(bytes "$dir/$name") bytes"
    done
    hard_names
    unset strict
}

# Names that some program has no spelling of: nobody is to blame, so what they make of these is told, and no test.
hard_names() {
    expect "hard names are made" fill_hard
    expect "hard names as cfb reads them" our_own hard
    for reader in $readers; do
        if same_by "$reader" "$dir/hard.cfb" "$dir/hard" >"$dir/log" 2>&1; then
            echo "hard names: $reader reads all"
        else
            printf '%s\n' "hard names: $reader does not give $(not_given | tr '\n' ',' | sed 's/,$//; s/,/, /g')"
        fi
    done
}

# The paths that the last reader did not list, or whose bytes it did not give.
not_given() {
    while IFS= read -r path; do
        cmp -s "$dir/hard/tree/$path" "$dir/found/tree/$path" || printf "'%s'\n" "$path"
    done <"$dir/hard/names"
}
fill_hard() {
    begin hard --size 64K && do_put '\D800x' 5 && do_put 'x\DC00' 6 && do_put '\000Anl' 7 && do_put '\0005Sum' 8 &&
        do_put '[5]Sum' 9 && do_put 'plain' 10 && do_put '-dash' 11 && end
}

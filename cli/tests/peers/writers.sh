# Files that other programs write here, into $written; those that are not installed are named and skipped.

# writes PROGRAM THERE FUNCTION
writes() {
    if [ -z "$2" ]; then
        echo "$1: not installed, skipped"
    else
        expect "$1 writes its files" "$3"
    fi
}

write_all() {
    mkdir -p "$written"
    writes "gsf createole" "$gsf" by_gsf
    writes "xlwt" "$(has xlwt)" by_xlwt
    writes "OLE::Storage_Lite" "$(perl_has OLE::Storage_Lite)" by_storage_lite
    writes "Spreadsheet::WriteExcel" "$(perl_has Spreadsheet::WriteExcel)" by_writeexcel
    writes "msibuild" "$(command -v msibuild)" by_msibuild
    writes "wixl" "$(command -v wixl)" by_wixl
}
perl_has() { perl -M"$1" -e 'print "yes"' 2>/dev/null; }

# gsf gives each stream its file's time. That of 1601 is 0, and streams must have none: but few file systems hold it.
by_gsf() {
    held=$(mktemp -d -p /dev/shm 2>/dev/null || mktemp -d) && mkdir "$held/Site" || return
    for size in 100 4096 70000; do
        noise "$size" >"$held/s$size" && touch -d '1601-01-01 00:00:00 UTC' "$held/s$size"
    done
    noise 5000 >"$held/Site/log"
    (cd "$held" && "$gsf" createole "$written/gsf-without-times.ole" s100 s4096 s70000 && touch s100 &&
        "$gsf" createole "$written/gsf-times.ole" s100 s4096 s70000 && "$gsf" createole "$written/gsf-storage.ole" Site s70000)
    done=$?
    rm -r "$held"
    return $done
}

by_xlwt() { "$(has xlwt)" "$peers/xlwt_book.py" "$written/xlwt-short.xls" 3 && "$(has xlwt)" "$peers/xlwt_book.py" "$written/xlwt-long.xls" 3000; }
by_storage_lite() { perl "$peers/storage_lite.pl" "$written/storage-lite-short.ole" 100 && perl "$peers/storage_lite.pl" "$written/storage-lite-long.ole" 9000; }
by_writeexcel() { perl "$peers/writeexcel.pl" "$written/writeexcel-short.xls" 3 && perl "$peers/writeexcel.pl" "$written/writeexcel-long.xls" 900; }

# An installer's file with tables of one row, and one with a stream.
by_msibuild() {
    noise 9000 >"$dir/part"
    for count in 1 2 3; do
        for number in 1 2 3; do
            [ "$number" -gt "$count" ] || msibuild "$written/msibuild-$count.msi" -q \
                "CREATE TABLE T$number (A INT NOT NULL PRIMARY KEY A)" "INSERT INTO T$number (A) VALUES (7)" || return
        done
    done
    cp "$written/msibuild-1.msi" "$written/msibuild-stream.msi" && msibuild "$written/msibuild-stream.msi" -a Rig.bin "$dir/part"
}

by_wixl() { noise 30000 >"$dir/rig.bin" && cp "$peers/rig.wxs" "$dir" && (cd "$dir" && wixl -o "$written/wixl.msi" rig.wxs); }

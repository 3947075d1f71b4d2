# Which programs are there, and in which version.
seven=$(command -v 7zz || command -v 7z || command -v 7za || true)
gsf=$(command -v gsf || true)

# has MODULE: the Python that has it
has() {
    for each in python3 /usr/bin/python3; do
        if $each -c "import $1" 2>/dev/null; then
            echo "$each"
            return
        fi
    done
}

# the comparisons are done by any Python; olefile needs the one that has it
olefile=$(has olefile)
python=${olefile:-$(has sys)}
if [ -z "$python" ]; then
    echo "python3 is not installed, and without it nothing can be compared"
    echo "0 passed, 0 failed"
    exit 0
fi

# version NAME PROGRAM COMMAND..: a line with the version, or with the word that it is skipped
version() {
    name=$1
    program=$2
    shift 2
    if [ -n "$program" ]; then
        echo "$name: $("$@" 2>&1)"
    else
        echo "$name: not installed, skipped"
    fi
}
seven_version() { "$seven" i | sed -n '2s/ :.*//p'; }

"$cfb" --version
version 7-Zip "$seven" seven_version
version libgsf "$gsf" "$gsf" --version
version olefile "$olefile" "$python" -c 'import olefile, platform; print(olefile.__version__, "with Python", platform.python_version())'
readers="${seven:+seven }${gsf:+gsf }${olefile:+olefile}"

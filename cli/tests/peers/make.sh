# Makes files by the command, and beside each the folder of what must be in it: DUE/tree, by the tools of the system.
# All paths are typed as `cfb ls` prints them, so a path is also the name of a file in the folder.
seed=0

noise() {
    seed=$((seed + 1))
    "$python" "$peers/noise.py" "$seed" "$1"
}

# Each does the same to the file and to the folder of what is due; `made` is the file, `due` the folder.
do_mkdir() { "$cfb" mkdir -- "$made" "$1" && mkdir "$due/tree/$1"; }
do_mk() { "$cfb" mk -- "$made" "$1" && : >"$due/tree/$1"; }
do_put() { noise "$2" >"$due/tree/$1" && "$cfb" put -- "$made" "$1" <"$due/tree/$1"; }
do_append() { noise "$2" >"$dir/part" && cat "$dir/part" >>"$due/tree/$1" && "$cfb" append -- "$made" "$1" <"$dir/part"; }
do_resize() { "$cfb" resize -- "$made" "$1" "$2" && truncate -s "$2" "$due/tree/$1"; }
do_rm() { "$cfb" rm -- "$made" "$1" && rm -d "$due/tree/$1"; }
do_rm_r() { "$cfb" rm -r -- "$made" "$1" && rm -r "$due/tree/$1"; }

# do_pulses PATH PREAMBLE VALVE:TICKS..: a pulse stream behind so many bytes, one pulse after the other
do_pulses() {
    path=$1
    noise "$2" >"$due/tree/$path"
    shift 2
    { cat "$due/tree/$path" && printf '\020\0\0\0\0\0\0\0\0\0\0\0\0\0\0\0'; } | "$cfb" put -- "$made" "$path" || return
    for pulse in "$@"; do
        "$cfb" pulse -- "$made" "$path" "${pulse%:*}" "${pulse#*:}" || return
    done
    "$python" "$peers/pulses.py" "$@" >>"$due/tree/$path"
}

# begin NAME OPTION..: a fresh file
begin() {
    made=$dir/$1.cfb
    due=$dir/$1
    shift
    mkdir -p "$due/tree" && "$cfb" new "$@" "$made" >>"$dir/log"
}

# end: the lists of what is due, from the folder
end() {
    (cd "$due/tree" && find . -mindepth 1 -type d -printf 'D 0 %P\n' -o -type f -printf 'F %s %P\n') | sort >"$due/list"
    cut -d ' ' -f 3- "$due/list" >"$due/names"
}

# The figures of the round: a line for each part and program. `copy` are files that 7-Zip read with another minor version.
print_figures() {
    echo
    echo "| part | program | files | streams | bytes | same | same, by a copy | differ |"
    echo "|---|---|---|---|---|---|---|---|"
    awk '{ key = $1 " | " $2; files[key]++; streams[key] += $3; bytes[key] += $4; seen[key, $5]++
           if (files[key] == 1) order[++count] = key }
         END { for (i = 1; i <= count; i++) { key = order[i]
               print "| " key " | " files[key] " | " streams[key] " | " bytes[key] " | " seen[key, "same"] + 0 \
                   " | " seen[key, "copy"] + 0 " | " seen[key, "differs"] + 0 " |" } }' "$dir/figures"
}

# For a script that runs many rows, each with its words and its input, and prints what came of each. The script reads
# this file by . "${0%/*}/../rows.sh" and then has these:
#
#     bytes HEX ..      gives the bytes that texts of hexadecimal words spell, as "8000004c 00000001"
#     row NAME WORD ..  runs yp with these words on what comes in, and prints NAME with the status, then the output by
#                       `shown`, and then the note
#     records           prints what comes in as hexadecimal words; each record begins a line
#
# `shown` is `records`, unless the script says otherwise.
shown=records

# The MATCH call of docs/FORMATS.md, of `alpha` in lab/hosts.byname, and the word of its row.
MATCH="8000004c 00000001 00000000 00000002 000186a4 00000002 00000003
    00000000 00000000 00000000 00000000
    00000003 6c616200 0000000c 686f7374 732e6279 6e616d65 00000005 616c7068 61000000"
ALPHA='alpha=10.0.0.1 alpha'

bytes() {
    xxd -r -p <<<"$*"
}

records() {
    xxd -p -c 4 | paste -sd ' ' | sed 's/ 8000/\n8000/g' | fold -s -w 118 | sed 's/ $//; /^$/d'
}

row() {
    local name=$1 status
    shift
    yp "$@" >row_output 2>row_note
    status=$?
    echo "$name: status $status"
    $shown <row_output
    cat row_note
}

# A booth table and an arrival log in document 01's words (docs/FORMATS.md), for a script in bash to source. For the
# audition, written where the caller says:
#
#     . examples/words.bash
#     table
#     booth 5 2 2
#     booth 10 4 3 4
#     log 12
#     entry 0 1 1 3
#     entry 1 0 0 2
#     entry 2 1 0 1
#     write_table >my.table
#     write_log >my.log
#
# A value that its field cannot hold is refused in words, the answer is 1, and nothing is written until `table` begins anew.
# A value that fits is written even where the box must refuse it, so that a refusal can be tried too.

# A byte is kept as its escape \xHH, four letters, since a variable of the shell cannot hold a zero byte.
records=
entries=
ticks=0
# What was refused, if anything: a file without it would not be the one that was asked for.
unwritable=

# The bytes of hex digits as escapes, in $spelled; a variable because a subshell for each of 4,096 entries is slow.
spell() { # HEX
    local at
    spelled=
    for ((at = 0; at < ${#1}; at += 2)); do
        spelled+="\\x${1:at:2}"
    done
}

# Is it a number in plain digits, no more than its field holds? Ten digits are as many as any field has.
fits() { # FIELD VALUE MOST
    [[ $2 =~ ^(0|[1-9][0-9]{0,9})$ ]] && (($2 <= $3)) && return
    unwritable="$1 '$2'"
    echo "words: the $1 '$2' cannot be written: its field holds 0 to $3, in plain digits" >&2
    return 1
}

# Are there as many values as the form says?
given() { # FORM LEAST MOST COUNT
    [ "$4" -ge "$2" ] && [ "$4" -le "$3" ] && return
    unwritable="line '$1'"
    echo "words: $4 values cannot be written as $1" >&2
    return 1
}

# Begins a table with no booth.
table() {
    records=
    unwritable=
}

# One more booth, of lower priority than those before it; its tasks' longest jobs stand highest priority first. A length
# byte counts no more than 255 bytes.
booth() { # PERIOD ALLOWANCE LONGEST_JOB..
    local length fields job
    given 'booth PERIOD ALLOWANCE LONGEST_JOB..' 2 127 $# || return 1
    fits period "$1" 65535 && fits allowance "$2" 65535 || return 1
    for job in "${@:3}"; do
        fits 'longest job' "$job" 65535 || return 1
    done
    printf -v length '%02x' $((2 * $#))
    printf -v fields '%04x' "$@"
    spell "$length$fields"
    records+=$spelled
}

# Begins a log with no entry.
log() { # TICKS
    given 'log TICKS' 1 1 $# && fits 'number of wall ticks' "$1" 4294967295 || return 1
    ticks=$1
    entries=
}

# One more arrival.
entry() { # TICK BOOTH TASK DEMAND
    local fields
    given 'entry TICK BOOTH TASK DEMAND' 4 4 $# || return 1
    fits 'wall tick' "$1" 4294967295 && fits booth "$2" 255 && fits task "$3" 255 && fits demand "$4" 65535 || return 1
    printf -v fields '08%08x%02x%02x%04x' "$@"
    spell "$fields"
    entries+=$spelled
}

# Nothing is written once a value was refused.
writable() {
    [ -z "$unwritable" ] && return
    echo "words: nothing is written, since the $unwritable was refused" >&2
    return 1
}

# Version, N, and the booths.
write_table() {
    local header
    writable && fits "table's N" $((${#records} / 4)) 65535 || return 1
    printf -v header '01%04x' $((${#records} / 4))
    spell "$header"
    printf '%b' "$spelled$records"
}

# Version, N (which counts the four bytes of H), H, and the entries.
write_log() {
    local header
    writable || return 1
    printf -v header '01%08x%08x' $((4 + ${#entries} / 4)) "$ticks"
    spell "$header"
    printf '%b' "$spelled$entries"
}

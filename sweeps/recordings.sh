# recordings: small recordings, cut after each of their bytes and with each byte changed, shown by the built program.
#
# Whatever bytes come, the program ends with lines of the kinds that there are and with one named fault at most, in
# little memory. Of a recording that is cut, what is printed is a beginning of what is printed of the whole.

# Shows the recording of the file $1, with all that the command can do.
show_recording() {
    memory=30000
    call with_little_memory recording --whole --types "$examples/types.toml" "$1"
}

# Whether the lines of standard input are those of messages, of what they say, and of faults.
are_lines() {
    awk '
        !/^[0-9]+ ((message|segment|sd|find|offer|stopoffer|subscribe|stopsubscribe|ack|nack|fault|whole|dropped|value) |empty$)/ { exit 1 }'
}

# Whether the lines of standard input tell what was left out, if anything was, and one fault at most, whose place is not
# after $1 bytes.
is_told() {
    awk -v size="$1" '
        NR == 1 && /^recording: left out / { next }
        /^recording: (NotRecording|Truncated|BadOrder|BlockLength|UnknownInterface|BlockTooLong|TooManyInterfaces) at [0-9]+$/ {
            if (faults++ || $4 > size) exit 1
            next
        }
        { exit 1 }'
}

# Judges the call before, over the recording of the file $2, as the case $1.
judge_shown() {
    cases=$((cases + 1))
    case $status in
    0 | 1) are_lines <"$scratch/out" && is_told "$(wc -c <"$2" | tr -d ' ')" <"$scratch/err" && return ;;
    esac
    findings=$((findings + 1))
    echo "$part: $1: got $(describe "$status" "$scratch/err" "$scratch/out")"
}

# Cuts the recording of the file $1 after each byte.
cut_recording() {
    show_recording "$1"
    cp "$scratch/out" "$scratch/whole"
    for kept in $(seq 0 "$(wc -c <"$1" | tr -d ' ')"); do
        head -c "$kept" "$1" >"$scratch/input"
        show_recording "$scratch/input"
        judge_shown "${1##*/} cut after $kept bytes" "$scratch/input"
        is_beginning "$scratch/out" "$scratch/whole" && continue
        findings=$((findings + 1))
        echo "$part: ${1##*/} cut after $kept bytes: what is printed is no beginning"
    done
}

# Writes a byte, whose number is the word.
write_byte() {
    # shellcheck disable=SC2059 # (the octal number is the format)
    printf "\\$(printf %03o "$1")"
}

# Changes each byte of the recording of the file $1: its lowest bit, its highest, and all.
change_recording() {
    place=0
    for byte in $(od -An -v -tu1 "$1"); do
        for change in 1 128 255; do
            {
                head -c "$place" "$1"
                write_byte $((byte ^ change))
                tail -c +$((place + 2)) "$1"
            } >"$scratch/input"
            show_recording "$scratch/input"
            judge_shown "${1##*/} with byte $place changed by $change" "$scratch/input"
        done
        place=$((place + 1))
    done
}

sweep_recordings() {
    begin_part recordings
    data=$here/sweeps/cases/data/recordings
    for path in "$examples/one.pcap" "$examples/whole.pcap" "$data/kinds.pcap" "$data/blocks.pcapng"; do
        cut_recording "$path"
        change_recording "$path"
    done
    end_part
}

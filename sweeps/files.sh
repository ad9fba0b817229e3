# files: the built program against the real system, which has folders, pipes, full devices and little memory.
#
# `sweeps/run files` calls the built program and judges the exit status and both texts, as FORMATS has them:
#
# - each command over what cannot be read: a folder, a path that is not there, one below a file, an empty one, one of
#   131,071 bytes (the system takes no longer word), and a file without permission;
# - each command onto what cannot be written: a full device, a pipe whose reader has ended, and closed standard
#   output; long texts onto a reader that ends after 1000 bytes and a file that may hold 512;
# - the other standard streams closed, and input from a pipe;
# - words of 131,071 bytes as a shape, as hex digits, and as neither;
# - inputs of 100 MB, inputs without an end and a large payload, within too little memory;
# - the same of a types file;
# - recordings: a folder on standard input; from a pipe that stays open, two packets, whose lines have to be there
#   before more comes, and the head of a packet that is too long, which has to be told then; and 39 MB within 20 MB of
#   memory.
#
# The part `calls` lets each read and each write of small inputs fail.

# ---- Calls of the program, and what is expected of them

# Calls the program on the words after the first, which is a function: it says in which circumstances. Keeps the exit
# status, and what came on standard output and standard error.
call() {
    circumstances=$1
    shift
    "$circumstances" "$program" "$@" >"$scratch/out" 2>"$scratch/err"
    status=$?
}

# Writes the text that is expected on standard error: this line, or nothing where it is empty.
write_error() {
    [ -z "$1" ] || printf '%s\n' "$1"
}

# Judges the call before as the case $1: its exit status is to be $2, the line on standard error $3, and the text on
# standard output that of the file $4.
expect() {
    cases=$((cases + 1))
    write_error "$3" >"$scratch/error"
    [ "$status" = "$2" ] && cmp -s "$scratch/err" "$scratch/error" && cmp -s "$scratch/out" "$4" && return
    findings=$((findings + 1))
    expected=$(describe "$2" "$scratch/error" "$4")
    echo "$part: $(echo "$1" | tr _ ' '): expected $expected, got $(describe "$status" "$scratch/err" "$scratch/out")"
}

# Judges by its exit status alone, $2, the call before as the case $1: its text is that of the library that reads words.
expect_status() {
    cases=$((cases + 1))
    [ "$status" = "$2" ] && return
    findings=$((findings + 1))
    echo "$part: $1: expected status $2, got $(describe "$status" "$scratch/err" "$scratch/out")"
}

# The beginning of the text of a file, in a line.
begin_of() {
    head -c 60 "$1" | tr '\n' ' '
}

# An exit status, the text on standard error, that of the file $2, and the one on standard output, in a line.
describe() {
    echo "status $1, error '$(begin_of "$2")', $(wc -c <"$3" | tr -d ' ') bytes '$(begin_of "$3")'"
}

# ---- Circumstances: each is a function, whose words are a command and its arguments

plainly() { "$@"; }

# As one who may read no file without permission. The superuser may read all.
as_nobody() {
    if [ "$(id -u)" != 0 ]; then "$@"; else setpriv --reuid=65534 --regid=65534 --clear-groups "$@"; fi
}

# With this many kilobytes of memory at most.
with_little_memory() { (ulimit -v "$memory" && exec "$@"); }

# With standard input from a pipe.
from_pipe() { cat "$piped" | "$@"; }

# With standard input from a pipe that stays open after these bytes, for two seconds.
waiting() { { cat "$piped" && sleep 3; } | timeout 2 "$@"; }

from_folder() { "$@" <"$examples"; }

onto_full_device() { "$@" >/dev/full; }

without_input() { "$@" <&-; }

without_output() { "$@" >&-; }

without_error() { "$@" 2>&-; }

# Onto a pipe whose reader has ended before.
onto_closed_pipe() {
    rm -f "$scratch/pipe"
    mkfifo "$scratch/pipe"
    : <"$scratch/pipe" &
    exec 5>"$scratch/pipe"
    wait $!
    "$@" >&5
    came=$?
    exec 5>&-
    return "$came"
}

# Onto a pipe whose reader ends after 1000 bytes.
onto_short_reader() {
    {
        "$@"
        echo $? >"$scratch/came"
    } | head -c 1000
    return "$(cat "$scratch/came")"
}

# Onto a file that may hold 512 bytes.
onto_short_file() { (trap '' XFSZ && ulimit -f 1 && exec "$@"); }

# ---- files: what cannot be read, what cannot be written, long words and little memory

# Calls the command that reads an input, $2, in the circumstances $1 on the file $3: `setup`, `schedule` and `trace` are the
# inputs of `run`, `compared` is its schedule beside a trace, `picture` and `drawn` are the schedule and the setup of `chart`,
# and `types` is the types file of `show`.
read_by() {
    case $2 in
    setup) call "$1" run "$3" "$examples/runs/two.txt" ;;
    schedule) call "$1" run "$examples/runs/two.toml" "$3" ;;
    trace) call "$1" run --expect "$3" "$examples/runs/two.toml" "$examples/runs/two.txt" ;;
    compared) call "$1" run --expect "$examples/runs/two.txt" "$examples/runs/two.toml" "$3" ;;
    picture) call "$1" chart "$examples/runs/two.toml" "$3" ;;
    drawn) call "$1" chart "$3" "$examples/runs/two.txt" ;;
    types) call "$1" show --types "$3" "$examples/speed.txt" ;;
    *) call "$1" "$2" "$3" ;;
    esac
}

# Each command refuses, in the circumstances $1, a file that cannot be read, at the path $3. $2 says what it is.
expect_unread() {
    for command in show vectors setup schedule trace compared picture drawn types recording audit; do
        read_by "$1" "$command" "$3"
        expect "$command of $2" 4 "cannot read $3" /dev/null
    done
}

# Reads what cannot be read.
sweep_unread() {
    expect_unread plainly "a folder" "$examples"
    expect_unread plainly "a path that is not there" "$scratch/nowhere"
    expect_unread plainly "a path below a file" "$examples/one.txt/one.txt"
    expect_unread plainly "an empty path" ""
    expect_unread plainly "a path of 131071 bytes" "$long"
    : >"$scratch/secret"
    chmod 000 "$scratch/secret"
    if as_nobody true 2>/dev/null; then
        expect_unread as_nobody "a file without permission" "$scratch/secret"
    else
        skipped=", skipped: a file without permission"
    fi
}

# Words whose whole answer is a text of help or of usage.
sweep_words() {
    call plainly help
    expect_status "help" 0
    call plainly list
    expect_status "a word that is no command" 2
    call plainly
    expect_status "no words" 2
}

# Calls the command $2, which prints a short text, in the circumstances $1.
print_by() {
    case $2 in
    show) call "$1" show "$examples/one.txt" ;;
    vectors) call "$1" vectors "$examples/vectors/two.txt" ;;
    payload) call "$1" payload u8 07 ;;
    run) call "$1" run "$examples/runs/two.toml" "$examples/runs/two.txt" ;;
    chart) call "$1" chart "$examples/runs/two.toml" "$examples/runs/two.txt" ;;
    recording) call "$1" recording "$examples/one.pcap" ;;
    audit) call "$1" audit "$examples/one.pcap" ;;
    help) call "$1" help ;;
    esac
}

# Each command that prints, in the circumstances $1, cannot write.
expect_unwritten() {
    for command in show vectors payload run chart recording audit help; do
        print_by "$1" "$command"
        expect "$command $1" 4 "cannot write" /dev/null
    done
}

# Prints to where nothing can be written.
sweep_unwritten() {
    expect_unwritten onto_full_device
    expect_unwritten onto_closed_pipe
    expect_unwritten without_output
}

# What `show` tells of a request, around its length.
request=1234.0421
header="client 0001 session 0001 interface 01 type REQUEST code 00"

# Reads and prints where a standard stream that is not needed is closed, and fails where the one for faults is.
sweep_closed_streams() {
    echo "1 message $request length 8 $header payload -" >"$scratch/whole"
    for circumstances in without_input without_error; do
        print_by "$circumstances" show
        expect "show $circumstances" 0 "" "$scratch/whole"
    done
    read_by without_error show "$scratch/nowhere"
    expect "show of a path that is not there without_error" 4 "" /dev/null
}

# Writes a word: this text so many times, and then another text.
repeat() {
    awk -v text="$1" -v count="$2" -v last="$3" '
        BEGIN { for (i = 0; i < count; i++) printf "%s", text; printf "%s", last }'
}

# Reads words of 131071 bytes, or of one less; the system takes no longer ones.
sweep_long_words() {
    hex=$(repeat 07 65535 "")
    printf 'value 7\nused 1 of 65535\n' >"$scratch/whole"
    call plainly payload u8 "$hex"
    expect "HEX of 131070 bytes" 0 "" "$scratch/whole"
    call plainly payload u8 "${hex}0"
    expect "HEX of 131071 bytes" 1 "bad hex" /dev/null
    { repeat 7, 43687 7 | sed 's/^/value (/; s/$/)/'; echo; echo "used 43688 of 43688"; } >"$scratch/whole"
    call plainly payload "struct($(repeat u8, 43687 u8))" "$(repeat 07 43688 "")"
    expect "SHAPE of 131071 bytes" 0 "" "$scratch/whole"
    call plainly payload "$(repeat 'struct(' 18724 str)" 00
    expect "SHAPE of 131071 bytes, too deep" 1 "bad shape at 448" /dev/null
    call plainly payload "$long" 00
    expect "a word of 131071 bytes that is no SHAPE" 1 "bad shape at 0" /dev/null
    call plainly show "$(printf '\377')"
    expect "a word that is not UTF-8" 2 "error: a word is no UTF-8

Usage: someipctl <COMMAND>" /dev/null
}

# Writes the input of the command $1 with so many messages, vectors, steps or numbers.
write_input() {
    awk -v command="$1" -v count="$2" '
        BEGIN {
            for (i = 0; i < 64; i++) bytes = bytes "5a"
            line["show"] = "12340421000000480001000101010000" bytes
            line["vectors"] = "datagram -\n> 1 empty"
            line["schedule"] = "call b 1111.0001 0421 -"
            line["setup"] = "0x0421,"
            line["types"] = line["setup"]
            if (command == "setup") print "group = \"239.0.0.1\"\nnumbers = ["
            if (command == "types") print "[[message]]\nnumbers = ["
            for (i = 0; i < count; i++) print line[command]
            if (command == "setup" || command == "types") print "]"
        }'
}

# Writes the text that is printed of such an input.
write_printed() {
    awk -v command="$1" -v count="$2" -v request="$request" -v header="$header" '
        BEGIN {
            for (i = 0; i < 64; i++) bytes = bytes "5a"
            line["show"] = " message " request " length 72 " header " payload " bytes
            line["vectors"] = " ok"
            line["schedule"] = " b refused NotOffered"
            for (i = 1; i <= count; i++) print i line[command]
            if (command == "vectors") print "passed " count " of " count
            if (command == "schedule") print "reuse clean"
        }'
}

# Judges a command whose text, that of the file `whole`, is longer than what a pipe holds: written whole, to a reader
# that ends after 1000 bytes, and to a file that may hold 512. $1 is the command, and the words after it call it.
expect_long_text() {
    case=$1
    shift
    call plainly "$@"
    expect "$case, a long text" 0 "" "$scratch/whole"
    head -c 1000 "$scratch/whole" >"$scratch/beginning"
    call onto_short_reader "$@"
    expect "$case onto_short_reader" 4 "cannot write" "$scratch/beginning"
    head -c 512 "$scratch/whole" >"$scratch/beginning"
    call onto_short_file "$@"
    expect "$case onto_short_file" 4 "cannot write" "$scratch/beginning"
}

# Prints long texts, of files and of the same bytes from a pipe.
sweep_long_texts() {
    for command in show vectors schedule; do
        write_input "$command" 30000 >"$scratch/input"
        write_printed "$command" 30000 >"$scratch/whole"
        case $command in
        schedule) expect_long_text "$command" run "$examples/runs/two.toml" "$scratch/input" ;;
        *) expect_long_text "$command" "$command" "$scratch/input" ;;
        esac
        piped=$scratch/input
        read_by from_pipe "$command" /dev/stdin
        expect "$command from_pipe" 0 "" "$scratch/whole"
    done
    { repeat 7, 65534 7 | sed 's/^/value [/; s/$/]/'; echo; echo "used 65535 of 65535"; } >"$scratch/whole"
    expect_long_text payload payload "fixed<65535,u8>" "$(repeat 07 65535 "")"
}

# How many lines of a command's input make 100 MB.
count_lines() {
    case $1 in
    show) echo 625000 ;;
    vectors) echo 4800000 ;;
    schedule) echo 4200000 ;;
    setup | types) echo 12500000 ;;
    esac
}

# The command $1 has no room in $2 kB for an input of 100 MB.
expect_no_room() {
    memory=$2
    read_by with_little_memory "$1" "$scratch/input"
    expect "$1 of 100 MB in $memory kB" 3 "out of memory" /dev/null
}

# Reads inputs of 100 MB where memory has no room for the bytes, or none beside them for what they say.
sweep_large_inputs() {
    for command in show vectors schedule setup types; do
        write_input "$command" "$(count_lines "$command")" >"$scratch/input"
        expect_no_room "$command" 20000
        expect_no_room "$command" 150000
    done
    rm "$scratch/input"
}

# Reads an input without an end.
sweep_endless_inputs() {
    memory=20000
    for command in show vectors schedule setup types; do
        read_by with_little_memory "$command" /dev/zero
        expect "$command of endless bytes in $memory kB" 3 "out of memory" /dev/null
    done
}

# Reads a payload of 65535 bytes, each of which is a number inside 14 structs.
sweep_large_payload() {
    memory=20000
    call with_little_memory payload "fixed<65535,$(repeat 'struct(' 14 u8)$(repeat ')' 14 "")>" "$(repeat 07 65535 "")"
    expect "a large payload in $memory kB" 3 "out of memory" /dev/null
}

# Doubles a file so many times.
double() {
    for _ in $(seq "$2"); do
        cat "$1" "$1" >"$scratch/doubled"
        mv "$scratch/doubled" "$1"
    done
}

# Writes what `recording` prints of so many packets of a request.
write_recorded() {
    seq "$1" | sed "s/\$/ message $request length 8 $header payload -/"
}

# Reads recordings as they come. `header` is the one of the file, `packets` holds packets of a request.
sweep_coming_recordings() {
    head -c 24 "$examples/one.pcap" >"$scratch/header"
    tail -c +25 "$examples/one.pcap" >"$scratch/packets"
    piped=$scratch/piped
    call from_folder recording -
    expect "recording from_folder" 4 "cannot read -" /dev/null

    double "$scratch/packets" 1
    cat "$scratch/header" "$scratch/packets" >"$piped"
    write_recorded 2 >"$scratch/whole"
    call waiting recording -
    expect "recording waiting, two packets" 124 "" "$scratch/whole"
    { cat "$scratch/header" && printf '\0\0\0\0\0\0\0\0\361\377\377\0\37\0\0\0'; } >"$piped"
    call waiting recording -
    expect "recording waiting, a packet of 16777201 bytes" 1 "recording: BlockTooLong at 24" /dev/null

    cp "$examples/audit.pcap" "$piped"
    sed '/^audited /,$d' "$examples/audit.txt" >"$scratch/whole"
    call waiting audit -
    expect "audit waiting" 124 "" "$scratch/whole"

    double "$scratch/packets" 18
    cat "$scratch/header" "$scratch/packets" >"$scratch/input"
    write_recorded 524288 >"$scratch/whole"
    memory=20000
    call with_little_memory recording "$scratch/input"
    expect "recording of 39 MB in $memory kB" 0 "" "$scratch/whole"
    rm "$scratch/input" "$scratch/packets"
}

sweep_files() {
    begin_part files
    sweep_words
    sweep_unread
    sweep_unwritten
    sweep_closed_streams
    sweep_long_words
    sweep_long_texts
    sweep_large_inputs
    sweep_endless_inputs
    sweep_large_payload
    sweep_coming_recordings
    end_part
}

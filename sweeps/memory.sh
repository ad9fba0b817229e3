# memory: each growth of memory is refused in turn.
#
# `sweeps/run memory` refuses growths of memory one after the other, by `sweeps/refused_growths.c`, a few lines of C
# that it builds and loads before a program. It counts calls of the C library's allocator, so the memory of the
# program's start and of its words counts too. The script counts upwards until a run meets no refusal.
#
# The tests of `crates/tests_layers` are rows of acts with their answers (`src/acts.rt`). A test does the acts of its
# tables, each table with a new subject, and where one of them is refused memory it is judged (`src/judging.rt`): that act
# answers that memory ran out, and nothing else. Then it is done once more, and it and all after it answer what their rows
# say; or, with `LEFT_OUT` in the environment, all after it answer what another subject answers with which that act was
# never done. So a refused act leaves all as it was. At last the table is tried once more: nothing was left in the process.
# The test prints `refused` then, or `unjudged` where a growth was refused outside of all acts. Answers are written to room
# that is taken before the first act, so that writing them takes none. These tests are swept:
#
#   `segment_lists`, `interval_pools`: `make`, `offer`, `take`, `expire`, `clear`
#   `calls_that_take_memory` of payloads: `read_shape`, `check_shape`, `decode`, `encode`, `read_value`, texts, names
#   `messages` of Service Discovery: `read_sd`, `write_sd`, `split_entries`
#   `segments_and_pieces`: what is appended
#   `sessions_and_peers`: `PeerTable::saw`
#   `offers`, `finds_and_known_offers`, `subscriptions_at_a_server`, `subscriptions_of_a_client`: every call that changes
#     the tables of Service Discovery
#   `calls_and_their_answers`, `requests_and_events`: every call that changes a `ClientCore` or a `ServerCore`
#
# A node that was refused memory fails instead: `sweeps/memory_node.c` says how it is judged, over the library for C.
#
# The program itself runs `show`, without a types file and with one, `recording --whole --types`, `audit`, both of these
# over copies, fragments and several files, `payload`, `encode`, `vectors`, `run`, alone and beside a trace, `chart`,
# `explore`, `services`, `stats` and `extract` so, and for objects `recording`, `audit` and `run`. Each refused growth,
# also of the command line, comes to exit status 3, `out of memory` on standard error, and a beginning of the expected
# text on standard output. Where one growth alone is refused, the program may go on, and then nothing differs: it asks a
# second time, or an audit looks at all that a book holds from then on, in place of an index. How many growths of a call
# are such stands with the call, so that an error of memory that nobody tells is found. The recordings of an audit are
# such that another growth comes after those of its indexes.
#
# The gate runs each test once with nothing refused.
#
# Some calls ask for memory a second time where the first is refused (a list that is collected asks for the room of all
# that comes, and where that is refused for that of one element), and go on. So where a run does not differ although a
# growth was refused, the next ones are refused with it, up to this many.
most_in_a_row=6

# The tests that it sweeps.
swept="of_someip_tp::store::segment_lists of_someip_tp::store::interval_pools of_someip_tp::segments::segments_and_pieces
    of_someip_payload::calls_that_take_memory of_sd_wire::messages of_sd_session::sessions_and_peers
    of_sd_core::offers::offers of_sd_core::seeker::finds_and_known_offers
    of_sd_core::subscribers::subscriptions_at_a_server of_sd_core::subscriptions::subscriptions_of_a_client
    of_someip_rpc::client::calls_and_their_answers of_someip_rpc::server::requests_and_events"

# Calls a program whose growth $1 is refused, and the ones after it, $2 in all. Keeps the exit status, what came on
# standard output and standard error, and how many growths there were.
call_refused() {
    REFUSED_GROWTH=$1
    REFUSED_GROWTHS=$2
    GROWTHS_SEEN=$scratch/seen
    shift 2
    rm -f "$scratch/seen"
    export REFUSED_GROWTH REFUSED_GROWTHS GROWTHS_SEEN
    LD_PRELOAD=$scratch/refused_growths.so "$@" >"$scratch/out" 2>"$scratch/err"
    status=$?
    seen=$(cat "$scratch/seen" 2>/dev/null || echo 0)
}

# Whether the call before met a refusal, and differs in nothing from one that meets none: then $2 is the text on
# standard output and $3 the status.
is_tolerated() {
    [ "$seen" -ge "$1" ] && [ "$status" = "$3" ] && cmp -s "$scratch/out" "$2"
}

# Calls the program after the words $2 and $3 with growth $1 refused, and with so many after it that the call differs
# from one that meets no refusal, which has the text of the file $2 on standard output and the status $3.
call_until_refused() {
    growth=$1
    unrefused=$2
    ends=$3
    shift 3
    row=1
    call_refused "$growth" "$row" "$@"
    while is_tolerated "$growth" "$unrefused" "$ends" && [ "$row" -lt "$most_in_a_row" ]; do
        row=$((row + 1))
        call_refused "$growth" "$row" "$@"
    done
}

# Tells a finding about growth $growth of what $1 names.
tell_growth() {
    findings=$((findings + 1))
    echo "$part: $1, growth $growth ($row refused): $2"
}

# Refuses each growth of the test $1 in turn, and does the act that was refused memory again, or leaves it out, as $2 says.
sweep_test() {
    if [ "$2" = left-out ]; then export LEFT_OUT=1; else unset LEFT_OUT; fi
    call_refused 0 1 "$tests_program" "$1"
    cp "$scratch/out" "$scratch/unrefused"
    [ "$status" = 0 ] || tell_growth "$1 $2" "nothing was refused, status $status"
    growth=1
    while :; do
        call_until_refused "$growth" "$scratch/unrefused" 0 "$tests_program" "$1"
        [ "$seen" -ge "$growth" ] || break
        growths=$((growths + 1))
        case "$status $(cat "$scratch/out")" in
        "0 refused"*) judged=$((judged + 1)) ;;
        "0 unjudged"*) ;;
        *) tell_growth "$1 $2" "status $status, $(tail -n 1 "$scratch/err")" ;;
        esac
        growth=$((growth + 1))
    done
    unset LEFT_OUT
}

# Refuses each growth of two nodes in turn.
sweep_node_library() {
    (cd "$here/crates/someip_c" && cc -O1 -Iinclude -o "$scratch/memory_node" "$here/sweeps/memory_node.c" out/libsomeip_c.a) &&
        "$scratch/memory_node" >"$scratch/out" || findings=$((findings + 1))
    grep '^memory: ' "$scratch/out"
    eval "$(sed -nE 's/^([0-9]+) ([0-9]+)$/growths=$((growths + \1)) judged=$((judged + \2))/p' "$scratch/out")"
}

# Whether the text of the file $1 is a beginning of that of the file $2.
is_beginning() {
    head -c "$(wc -c <"$1" | tr -d ' ')" "$2" | cmp -s "$1" -
}

# Refuses each growth in turn of the program on the words after $1. It goes on without so many of them as $1 says, where
# one alone is refused.
sweep_program() {
    expected=$1
    shift
    call_refused 0 1 "$program" "$@"
    cp "$scratch/out" "$scratch/unrefused"
    ended=$status
    without=
    growth=1
    while :; do
        call_until_refused "$growth" "$scratch/unrefused" "$ended" "$program" "$@"
        [ "$seen" -ge "$growth" ] || break
        growths=$((growths + 1))
        judged=$((judged + 1))
        [ "$row" -eq 1 ] || without="$without $growth"
        came=$(cat "$scratch/err")
        [ "$status $came" = "3 out of memory" ] && is_beginning "$scratch/out" "$scratch/unrefused" ||
            tell_growth "someipctl $1" "status $status, error '$came', $(wc -c <"$scratch/out" | tr -d ' ') bytes printed"
        growth=$((growth + 1))
    done
    growth=${without# }
    row=1
    [ "$(echo $without | wc -w)" -eq "$expected" ] ||
        tell_growth "someipctl $1" "goes on without each of these, and not of $expected"
}

sweep_memory() {
    begin_part memory
    for built in "$tests_program" "$here/crates/someip_c/out/libsomeip_c.a"; do
        if [ ! -f "$built" ]; then
            echo "$part: nothing at $built: rt ci and crates/someip_c/make-archive build it" >&2
            return 1
        fi
    done
    growths=0
    judged=0
    cc -O1 -shared -fPIC -o "$scratch/refused_growths.so" "$here/sweeps/refused_growths.c" || return 1
    for test in $swept; do
        sweep_test "$test" again
        sweep_test "$test" left-out
    done
    sweep_node_library
    sweep_program 1 show "$examples/segments.txt"
    sweep_program 1 show --types "$examples/types.toml" "$examples/speed.txt"
    sweep_program 1 recording --whole --types "$examples/types.toml" "$examples/route.pcap"
    sweep_program 9 audit --ports 30509 "$examples/route.pcap" "$examples/audit.pcap"
    sweep_program 4 recording --dedup 5 --frames --endpoints --interface 0,1 --address 192.168.0.1,224.0.0.251 \
        --service 1234,ffff "$examples/taps/two.pcapng" "$examples/one.pcap"
    sweep_program 5 audit --dedup 5 --vlan 5 "$examples/taps/two.pcapng" "$examples/one.pcap"
    sweep_program 1 payload 'array/8<2,array/8<2,u8>>' 050201020103
    sweep_program 1 vectors "$examples/vectors/two.txt"
    sweep_program 16 run "$examples/runs/two.toml" "$examples/runs/two.txt"
    sweep_program 1 recording --json --frames --endpoints --whole --types "$examples/types.toml" "$examples/route.pcap"
    sweep_program 9 audit --json --ports 30509 "$examples/route.pcap" "$examples/audit.pcap"
    sweep_program 16 run --json --lines "$examples/runs/two.toml" "$examples/runs/two.txt"
    sweep_program 16 run --expect "$examples/runs/two.trace" "$examples/runs/two.toml" "$examples/runs/two.txt"
    sweep_program 16 run --begins "$examples/runs/two.trace" "$examples/runs/two.toml" "$examples/runs/two.txt"
    sweep_program 16 chart "$examples/runs/two.toml" "$examples/runs/two.txt"
    sweep_program 17 explore --steps 1 --never 'a request' "$examples/runs/two.toml" \
        "$examples/explore/early_answer.moves" 'b answer'
    sweep_program 1 encode 'struct(speed:f32,gear:u8{0=P,3=D})' '(speed=20.5,gear=D)'
    sweep_program 1 services "$examples/audit.pcap"
    sweep_program 8 stats --ports 30509 "$examples/route.pcap" "$examples/audit.pcap"
    sweep_program 1 extract "$examples/taps/two.pcapng"
    [ "$findings" -eq 0 ] || return 1
    echo "$part: $growths growths refused, $judged of them judged, no finding"
}

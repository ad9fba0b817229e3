# The crates of crates.txt, and what a proof of them needs, for the scripts that prove some of them. `$here` is the top of
# the repository.

# A crate of crates.txt, and those that it stands on.
needed_crates() {
    awk -F: -v top="$1" '
        !/^#/ && NF > 1 { split($1, words, " "); below[words[1]] = $2 }
        END {
            wanted[top] = 1; found = 1
            while (found) {
                found = 0
                for (crate in wanted) {
                    n = split(below[crate], names, " ")
                    for (i = 1; i <= n; i++) if (names[i] in below && !(names[i] in wanted)) { wanted[names[i]] = 1; found = 1 }
                }
            }
            for (crate in wanted) print crate
        }' "$here/crates.txt"
}

# The libraries of crates.txt that the archive for C is built over.
archive_crates() { needed_crates someip_c | grep -vx someip_c; }

# Whether the file or folder $1 is there, and nothing is newer of the sources, definitions and proofs of the crate $2, of
# which it was made, and of those that this stands on.
is_built() {
    [ -e "$1" ] || return 1
    for crate in $(needed_crates "$2"); do
        for part in src specs proofs; do
            [ ! -d "$here/crates/$crate/$part" ] || [ -z "$(find "$here/crates/$crate/$part" -newer "$1" -print -quit)" ] || return 1
        done
    done
}

# Copies the crate $2, but for its wrong bodies and what was made of it, below the folder $1.
copy_crate() {
    mkdir -p "$1/crates/$2" || return 1
    for part in "$here/crates/$2"/*; do
        case ${part##*/} in
        out | must-fail | wrong-bodies) ;;
        *) cp -r "$part" "$1/crates/$2" || return 1 ;;
        esac
    done
}

# Copies crates, each with its line of crates.txt, and nothing else, to the folder $1.
copy_crates() {
    copied=$1
    shift
    mkdir -p "$copied" && cp "$here/HANDLES" "$copied" && : >"$copied/crates.txt" || return 1
    for crate do
        copy_crate "$copied" "$crate" && grep "^${crate}[ :]" "$here/crates.txt" >>"$copied/crates.txt" || return 1
    done
}

# Proves someip_c and builds the archive for C, as the file $2, below the folder $1, over the libraries that a run of
# `rt ci` left there. `rt lib` would prove the crates below once more: it reads no library of a gate.
build_archive() (
    archive=$2
    rt=$(kit)
    cd "$1/crates/someip_c" || exit 1
    set -- --crate-name someip_c src/lib.rt --crate-type staticlib --links someip_c= --extern "std=$rt/rlibs/std.rlib"
    for name in $(sed -n 's/^someip_c staticlib: //p' "$here/crates.txt"); do
        library=../$name/out/rlib/$name.rlib
        [ -d "$library" ] || library=$rt/rlibs/$name.rlib
        set -- "$@" --extern "$name=$library"
    done
    for name in $(archive_crates); do set -- "$@" -L "dependency=../$name/out/rlib"; done
    set -- "$@" -L "dependency=$rt/rlibs" --logic-built "$rt/logic_built"
    set -- "$@" --antt-project "$rt/rattle/logic/antt-project.json" --toolchain "$rt/toolchain" --jobs 2
    exec "$rt/bin/rattle" build "$@" -o "$archive"
)

# The folder of the toolchain.
kit() { dirname "$(dirname "$(readlink -f "$(command -v rt)")")"; }

# Whether `rt` keeps what it proved from one run to the next.
keeps_proofs() { [ -O "$(kit)-kept" ]; }

# A number of a control group, from the first of these files that has one.
group_number() {
    for file do
        number=$(cut -d ' ' -f 1 "/sys/fs/cgroup/$file" 2>/dev/null)
        case $number in '' | *[!0-9]*) ;; *) echo "$number" && return ;; esac
    done
}

# How many processors there are to use, also within a control group.
processors() {
    count=$(nproc)
    quota=$(group_number cpu.max cpu/cpu.cfs_quota_us)
    period=$(cut -d ' ' -f 2 /sys/fs/cgroup/cpu.max 2>/dev/null || group_number cpu/cpu.cfs_period_us)
    if [ -n "$quota" ] && [ "${period:-0}" -gt 0 ] && [ $((quota / period)) -lt "$count" ]; then count=$((quota / period)); fi
    [ "$count" -ge 1 ] && echo "$count" || echo 1
}

# The free memory in megabytes, also within a control group.
free_memory() {
    free=$(awk '/^MemAvailable:/ { print int($2 / 1000) }' /proc/meminfo)
    limit=$(group_number memory.max memory/memory.limit_in_bytes)
    used=$(group_number memory.current memory/memory.usage_in_bytes)
    if [ -n "$limit" ] && [ -n "$used" ] && [ $(((limit - used) / 1000000)) -lt "$free" ]; then free=$(((limit - used) / 1000000)); fi
    echo "$free"
}

# The megabytes of memory that a proof of one crate takes at most, those that linking without a proof takes, and those of
# disk that the libraries of all crates take.
proof_memory=3000
linking_memory=5000
build_disk=5000

# How many crates may be proved side by side: one for each processor that has memory for a proof.
proof_jobs() {
    number=$(($(free_memory) / proof_memory))
    [ "$number" -lt "$(processors)" ] || number=$(processors)
    [ "$number" -ge 1 ] && echo "$number" || echo 1
}

# Says what of $2 megabytes of memory and $3 of disk at the folder for temporary files is not there, for what $1 names.
tell_lack() {
    free=$(free_memory)
    disk=$(df -Pm "${TMPDIR:-/tmp}" | awk 'NR == 2 { print $4 }')
    if [ "$free" -lt "$2" ]; then
        echo "someipctl: $1 takes $2 MB of memory, and $free MB are free" >&2
    elif [ "$disk" -lt "$3" ]; then
        echo "someipctl: $1 takes $3 MB in ${TMPDIR:-/tmp}, and $disk MB are free" >&2
    else
        return 1
    fi
}

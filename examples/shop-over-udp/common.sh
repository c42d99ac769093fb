# What the runs in this folder and in examples/shop-over-tcp share. A run sources this file, and then has `top`, the top of the repository, `program`,
# what it runs, and `folder`, which goes when the run ends, with each process that it started. Nothing here waits for a time: each limit only ends a hang.
top=$(cd "$(dirname "${BASH_SOURCE[0]}")/../.." && pwd) || exit 1
program=${PROGRAM:-$top/sessiongraph}
folder=$(mktemp -d) || exit 1
limit=300
# the processes that were started: their numbers, and of each its link, its port and its name
pids=() of=()
finish() {
    [ ${#pids[@]} -eq 0 ] || kill "${pids[@]}" 2>/dev/null
    rm -rf "$folder"
}
trap finish EXIT

# sockets LINK PORT: the states of the sockets that have a port of the loopback, or of all addresses, in the tables of `udp` or `tcp`.
sockets() {
    cat "/proc/net/$1" "/proc/net/${1}6" 2>/dev/null | awk -v port="$(printf '%04X' "$2")" '
        { split($2, at, ":") }
        at[2] == port && at[1] ~ /^(0+|(0000000000000000FFFF0000)?0100007F)$/ { print $4 }'
}

# listens LINK PORT: whether somebody does.
listens() {
    local state=0A
    [ "$1" = tcp ] || state=07
    sockets "$1" "$2" | grep -qx "$state"
}

# taken LINK PORT: says who has a port, if somebody has it.
taken() {
    if listens "$1" "$2"; then
        echo "Somebody else listens there (/proc/net/$1)."
    elif [ -n "$(sockets "$1" "$2")" ]; then
        echo "A connection has the port, or had it less than a minute ago (/proc/net/$1)."
    fi
}

# gives_up WORD..: ends the run.
gives_up() {
    echo "$(basename "$(cd "$(dirname "$0")" && pwd)"): $*"
    cat "$folder"/*.err 2>/dev/null
    exit 1
}

# starts LINK PORT NAME WORD..: starts a process that is to listen at a port. Its lines go to NAME.lines, and what it says to NAME.err.
starts() {
    local link=$1 port=$2 name=$3
    shift 3
    # (what isn't its own must not be taken for it)
    ! listens "$link" "$port" || gives_up "$name can't listen at port $port of ${link^^}. $(taken "$link" "$port")"
    timeout "$limit" "$@" >"$folder/$name.lines" 2>"$folder/$name.err" &
    pids+=($!)
    of+=("$link $port $name")
}

# ended PLACE: waits for the end of a process that has ended or will. If it ended badly, or must not have ended yet, the run ends.
ended() {
    local link port name status
    wait "${pids[$1]}"
    status=$?
    read -r link port name <<<"${of[$1]}"
    if [ "$status" -ne 0 ] || [ "${2-}" = early ]; then
        # (who wrote no line perhaps found the port taken)
        gives_up "$name, who is to listen at port $port of ${link^^}, ended with status $status. $([ -s "$folder/$name.lines" ] || taken "$link" "$port")"
    fi
    unset "pids[$1]" "of[$1]"
}

# all_listen: waits until each process that was started does.
all_listen() {
    local place link port name
    for place in "${!pids[@]}"; do
        read -r link port name <<<"${of[place]}"
        until listens "$link" "$port"; do
            # (who neither listens nor ends is ended by its limit)
            kill -0 "${pids[place]}" 2>/dev/null || ended "$place" early
            sleep 0.1
        done
    done
}

# all_end: waits until each process that was started has ended.
all_end() {
    local place
    while [ ${#pids[@]} -gt 0 ]; do
        for place in "${!pids[@]}"; do
            kill -0 "${pids[place]}" 2>/dev/null || ended "$place"
        done
        sleep 0.1
    done
}

# Read by run.sh where its part icecream is named: a scheduler of icecream, three daemons that stand for hosts, and one for the machine
# that builds, which takes no work of others. All of it has a network of its own (unshare --net), so that nobody else reaches it. What
# the daemons read as /proc/stat stands still: each is to have idle processors, as a host of its own would, and the scheduler gives no
# work to one that is busy. iceccd wants to be root, and goes on as the user icecc.
ice=$work/icecream ice_port=8765
declare -A ice_pid=()
export ICECC_TEST_SOCKET=$ice/caller.socket ICECC_TEST_REMOTEBUILD=1
export PATH=$PATH:/usr/sbin:/sbin

ice_network() {
    ip link set lo up || return
    mkdir -p "$ice" && chown icecc "$ice" || return
    cat /proc/stat >"$ice/stat" && mount --bind "$ice/stat" /proc/stat
}

# ice_start NAME PROGRAM WORDS..: in a session of its own, so that a signal reaches all its processes.
ice_start() {
    local name=$1
    shift
    [ -z "${ice_pid[$name]:-}" ] || return 0
    setsid "$@" -n farm -u icecc -l "$ice/$name.log" -vvv >/dev/null 2>&1 </dev/null &
    ice_pid[$name]=$!
}

# ice_daemon NAME PORT WORDS..
ice_daemon() {
    local name=$1 port=$2
    shift 2
    [ -d "$ice/$name" ] || { mkdir "$ice/$name" && chown icecc "$ice/$name"; } || return
    ICECC_TEST_SOCKET=$ice/$name.socket ice_start "$name" iceccd -s 127.0.0.1:$ice_port -N "$name" -b "$ice/$name" -p "$port" "$@"
}

# ice_signal NAME SIGNAL
ice_signal() {
    kill "-$2" -- "-${ice_pid[$1]}"
    [ "$2" = KILL ] || return 0
    wait "${ice_pid[$1]}" 2>/dev/null
    unset "ice_pid[$1]"
}

ice_end() {
    local name
    for name in "${!ice_pid[@]}"; do ice_signal "$name" KILL; done
}

# ice_all: whoever isn't there is started; and the scheduler knows all four.
ice_all() {
    local name host
    [ -n "${ice_pid[scheduler]:-}" ] || ice_end
    : >>"$ice/scheduler.log" && chown icecc "$ice/scheduler.log" || return
    ice_start scheduler icecc-scheduler -p $ice_port
    for host in 1 2 3; do ice_daemon "host$host" $((ice_port + 1 + host)) -m 12 || return; done
    ice_daemon caller $((ice_port + 1 + 4)) --no-remote -m 4 || return
    for name in host1 host2 host3 caller; do
        for _ in $(seq 300); do
            [ "$(grep -c " login $name " "$ice/scheduler.log")" -lt "$(ice_wanted "$name")" ] || continue 2
            sleep 0.1
        done
        echo "run.sh: $name isn't known to icecream's scheduler:"
        tail -n 5 "$ice/scheduler.log" "$ice/$name.log"
        return 1
    done
}

# ice_wanted NAME: how often it was started, as its own log says.
ice_wanted() { grep -c 'daemon .* starting up' "$ice/$1.log"; }

# ice_compiled [HOST]: compilations that ended well at that host, or at all three.
ice_compiled() { grep -c "END .* status=0 .*server=host${1:-[123]}\$" "$ice/scheduler.log"; }

part_icecream() {
    local host busy=0 ENGINE=icecc
    compiled_by_hosts() { ice_compiled; }
    export ENGINE
    nothing_built
    ice_all || exit 1
    ALIKE=yes build "icecream: from nothing" $all -
    for host in 1 2 3; do [ "$(ice_compiled "$host")" -eq 0 ] || busy=$((busy + 1)); done
    told "icecream: hosts that compiled" "$([ "$busy" = 3 ] || echo ' some did not')" "$busy"
    echo "run.sh: of $compiled files the hosts compiled $(ice_compiled), this machine the others" >&2
    told "icecream: reports as the preprocessor's" "$([ "$(reports)" = 240 ] || echo ' some are not')" "$(reports)"
    build "icecream: nothing to do" 0 0
    touch include/g05.h
    build "icecream: touched: the header of a group" 11 -
    python3 project.py set include/f3.h 1000
    build "icecream: changed: the header of a family" 41 -
    python3 project.py set include/f3.h 4
    scales="1 5"
    build "icecream: changed: that back, and the flags of app" 121 - "APPFLAGS=-O2 -DSCALE=5"
    scales="1 2"
    nothing_built
    ALIKE=yes MEANWHILE="when_objects 60 ice_signal host2 KILL" build "icecream: a host is killed in the midst" $all -
    nothing_built
    ice_all || exit 1
    ALIKE=yes MEANWHILE="when_objects 60 ice_signal scheduler KILL" build "icecream: the scheduler is killed in the midst" $all -
    ice_end
    touch include/f3.h
    # Where this variable names a socket that nobody serves, icecc fails; without it, as it is used, it compiles here.
    unset ICECC_TEST_SOCKET
    ALIKE=yes build "icecream: nothing of it is there" 41 0
}

# Read by run.sh: three servers of distcc stand for three hosts, each with an address of its own on this machine. $work is a folder
# that each user may enter: a server that root starts goes on as the user distccd.
hosts="1 2 3"
port=$((21000 + $$ % 10000))
host_pid=() starts=0

export DISTCC_DIR=$work/distcc DISTCC_LOG=$work/distcc.log
DISTCC_HOSTS=$(for host in $hosts; do echo "127.0.0.$((host + 1)):$((port + host))/12"; done | tr '\n' ' ')
export DISTCC_HOSTS

# start_host N: starts it, where it isn't there, and waits until it listens.
start_host() {
    local place=$work/host$1 log
    [ -z "${host_pid[$1]:-}" ] || return 0
    [ -d "$place" ] || mkdir -m 1777 "$place" || return
    starts=$((starts + 1)) log=$place/log$starts
    # Here and not by the server's own shell, which may come to it later than the first look.
    : >"$log"
    # A session of its own, so that a signal reaches all its processes and nobody else's.
    TMPDIR=$place setsid distccd --daemon --no-detach --listen "127.0.0.$(($1 + 1))" --port "$((port + $1))" \
        --allow 127.0.0.0/8 --jobs 12 --log-level info --log-stderr >"$log" 2>&1 </dev/null &
    host_pid[$1]=$!
    for _ in $(seq 100); do
        ! grep -q 'daemon started' "$log" || return 0
        kill -0 "${host_pid[$1]}" 2>/dev/null || break
        sleep 0.1
    done
    echo "run.sh: host $1 doesn't start:"
    cat "$log"
    return 1
}

# signal_host N SIGNAL: to all processes of that host.
signal_host() {
    kill "-$2" -- "-${host_pid[$1]}"
    [ "$2" = KILL ] || return 0
    wait "${host_pid[$1]}" 2>/dev/null
    host_pid[$1]=
}

end_hosts() {
    local host
    for host in $hosts; do
        [ -z "${host_pid[$host]:-}" ] || signal_host "$host" KILL
    done
}

# all_hosts: all three are there, and distcc has forgotten which of them failed.
all_hosts() {
    local host
    rm -rf "$DISTCC_DIR"
    mkdir "$DISTCC_DIR"
    for host in $hosts; do
        start_host "$host" || return
    done
}

# compiled_by_hosts: how many compilations ended well at the hosts, as these say.
compiled_by_hosts() { cat "$work"/host*/log* | grep -c COMPILE_OK; }

#!/bin/busybox sh
# The first program of the virtual machine of power_cuts.py. The kernel's line has mode=, tools=, pause=, expire=, profile=. Each tool has a
# disk of its own, with a tree; mode 'judge' has one more, for its answers.
/bin/busybox mkdir -p /proc /sys /dev /d /r /tmp /usr
/bin/busybox --install -s /bin
mount -t proc proc /proc
mount -t sysfs sys /sys
mount -t devtmpfs dev /dev
for word in $(cat /proc/cmdline); do
    case $word in mode=* | tools=* | pause=* | expire=* | profile=*) eval "$word" ;; esac
done
export PAUSE=$pause
[ "$profile" = strict ] || export DMK_PROFILE=$profile
# Without a status line, behind which what is said here wouldn't stand in a line of its own.
export TERM=dumb
echo "$expire" >/proc/sys/vm/dirty_expire_centisecs
tools=$(echo "$tools" | tr , ' ')

# run TOOL WORDS..: the tool in the folder of its tree.
run() {
    local tool=$1
    shift
    cd "/d/$tool" || return 99
    case $tool in
    dmk) dmk -j 4 "$@" ;;
    dmk-unsynced-targets) LD_PRELOAD=/lib/unsynced.so UNSYNCED=targets dmk -j 4 "$@" ;;
    dmk-unsynced) LD_PRELOAD=/lib/unsynced.so UNSYNCED=all dmk -j 4 "$@" ;;
    *) "$tool" -j 4 "$@" ;;
    esac
}

# dry TOOL: its dry run, which shows the command of each target that it would make.
dry() {
    local verbose=
    [ "$1" = ninja ] && verbose=-v
    run "$1" -n $verbose
}

# named TOOL: how many targets its dry run shows.
named() { dry "$1" | grep -o '@[^@ ]*@' | sort -u | wc -l; }

# judge TOOL: into /r/TOOL what a dry run says and what the targets' files are; of dmk also what a run that isn't cut makes of
# them, what there is to do behind it, and what once a hidden prerequisite has changed.
judge() {
    local tool=$1 into=/r/$1
    cd "/d/$tool" || return
    ls -la --full-time . out >"$into/listing" 2>&1
    xargs sha256sum <targets >"$into/sums" 2>/dev/null
    cp .make.state .make.state.2 .ninja_log .ninja_deps "$into/" 2>/dev/null
    dry "$tool" >"$into/dry" 2>"$into/dry.err"
    echo $? >"$into/dry.status"
    [ "$tool" = dmk ] || return
    run "$tool" >"$into/again" 2>&1
    echo $? >"$into/again.status"
    xargs sha256sum <targets >"$into/again.sums" 2>/dev/null
    dry "$tool" >"$into/left_over" 2>&1
    # File times go by steps of a hundredth of a second.
    sleep 1
    sh ./hidden.sh
    dry "$tool" >"$into/hidden" 2>&1
}

# A compiler, where the tree wants one.
if [ -e /dev/ubdh ]; then
    mount -t ext4 -o ro,noload /dev/ubdh /usr || echo "NOT MOUNTED /usr"
    export PATH=/bin:/usr/bin
fi
set -- a b c d e f g
for tool in $tools; do
    mkdir -p "/d/$tool" "/r/$tool"
    mount -t ext4 "/dev/ubd$1" "/d/$tool" || echo "NOT MOUNTED $tool"
    shift
done
case $mode in
build)
    tool=$tools
    echo "READY"
    run "$tool" >/dev/null 2>"/tmp/err"
    echo "END $?"
    cat /tmp/err
    sleep 100000
    ;;
prepare)
    for tool in $tools; do
        (run "$tool" >/dev/null; echo "END $tool $?")
        echo "WHOLE $tool $(named "$tool")"
        sync
        sleep 1
        (cd "/d/$tool" && sh ./later.sh)
        echo "CHANGED $tool $(named "$tool")"
        sync
        umount "/d/$tool"
    done
    echo "PREPARED"
    ;;
judge)
    for tool in $tools; do judge "$tool"; done
    cd /
    tar cf "/dev/ubd$1" -C /r . && judged=yes
    for tool in $tools; do umount "/d/$tool"; done
    sync
    [ "$judged" ] && echo "JUDGED"
    ;;
esac
poweroff -f

#!/bin/sh
# A farm of three hosts on this machine: a guest counts, and each host is emptied in turn.
#
#     farm.sh [RVMOVE]      RVMOVE: the program, that of the PATH if none is given
set -eu
rvmove=${1:-rvmove}
here=$(dirname "$0")
farm=$(mktemp -d)

tell() {
    "$rvmove" tell "$farm/$1.socket" "$2"
}

end() {
    for name in A B C; do
        tell $name 'stop now' > /dev/null 2>&1 || true
    done
    wait
    rm -r "$farm"
}
trap end EXIT

"$rvmove" asm "$here/count.s" "$farm/count.elf"
printf '%s\n' 'A 127.0.0.1:7001' 'B 127.0.0.1:7002' 'C 127.0.0.1:7003' > "$farm/hosts.txt"
head -c 32 /dev/urandom > "$farm/secret"
chmod 600 "$farm/secret"

start() {
    "$rvmove" host "$@" --peers "$farm/hosts.txt" --secret "$farm/secret" --control "$farm/$1.socket" \
        >> "$farm/console" 2>> "$farm/errors" &
}
start A "$farm/count.elf" --pages 64 --rate 10000000
start B
start C

# Until all have met.
for try in $(seq 200); do
    case $(tell A status 2> /dev/null)$(tell B status 2> /dev/null) in
        *'peers B C'*'peers A C'*) break ;;
    esac
    sleep 0.05
done

tell A 'move B' && echo 'A is empty'
tell B 'move C' && echo 'B is empty'
tell C 'move A' && echo 'C is empty'
tell A status

# What all three showed, each number once.
sleep 0.2
if head -n -1 "$farm/console" | awk '{ if ($0 != sprintf("%06x", NR - 1)) exit 1 }'; then
    echo 'the numbers follow one another'
fi

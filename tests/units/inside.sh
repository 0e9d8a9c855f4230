#!/bin/bash
# In the container of test_live.py: what the units do under systemd, from the first start to the
# last failure. Prints a line for each thing that is as it must be, and ends at the first that is
# not.
# shellcheck disable=SC2317  # `expect` and `within` call functions by their names
unit=clock-auction.service
journal=/var/lib/private/clock_auction/auction.journal
token=XXXXXXXXXXXXXXXX
sheet='{"bids":[{"price":100,"product":0,"quantity":2}],"round":1}'

seen() { echo "seen: $1"; }
finish() { systemctl poweroff --no-block; exit 0; }
fail() {
    echo "FAILED: $1"
    journalctl -b -u $unit -u clock-auction-conductor -u clock-auction-receipts --no-pager -o cat \
        | tail -n 20
    finish
}
expect() { local what=$1; shift; if "$@"; then seen "$what"; else fail "$what"; fi; }
within() {
    local what=$1
    shift
    for _ in $(seq 150); do
        if "$@" > /dev/null 2>&1; then seen "$what"; return; fi
        sleep 0.2
    done
    fail "$what, not within 30 s"
}
asked() { curl -sS -m 5 -H "authorization: Bearer $token" "${@:2}" "http://127.0.0.1:8105$1"; }
answers() { asked /v1/status | grep -q '"round":1'; }
keeps() { asked /v1/me/bids | grep -qF "$sheet"; }
main_process() { systemctl show -p MainPID --value $unit; }
another_than() { local now; now=$(main_process); [ "$now" != 0 ] && [ "$now" != "$1" ]; }
limit_is() { grep -qE "^$1 +$2 " "/proc/$(main_process)/limits"; }
told_in_log() { journalctl -b -u "$unit" --no-pager -o cat | grep -qF "$1"; }
cannot_write() { ! nsenter -t "$(main_process)" -m -- touch "$1" 2> /dev/null; }

within "it answers after the start of the machine" answers
process=$(main_process)
expect "it has a user of its own" test "$(stat -c %U "/proc/$process")" = auction-server
expect "no other user can connect to it" bash -c \
    '! setpriv --reuid nobody --regid nogroup --clear-groups \
        curl -s -m 5 http://127.0.0.1:8105/v1/status'
expect "it has no capability" grep -qE '^CapEff:\s0+$' "/proc/$process/status"
expect "its calls are filtered" grep -qE '^Seccomp:\s2$' "/proc/$process/status"
expect "its address space is limited to 4 GiB" limit_is "Max address space" 4294967296
expect "it leaves no core" limit_is "Max core file size" 0
user=$(stat -c %u "/proc/$process")
group=$(stat -c %g "/proc/$process")
expect "only it reads the journal" test "$(stat -c %a:%u $journal)" = "600:$user"
expect "it reads a copy of the set-up, and no other user does" \
    test "$(stat -c %a:%u /run/credentials/$unit/setup.json)" = "400:$user"
as_it=(nsenter -t "$process" -m -- setpriv --reuid "$user" --regid "$group" --clear-groups)
writable=$("${as_it[@]}" find / -path /proc -prune \
    -o -writable ! -type l ! -type c ! -type s -print 2> /dev/null | sort | paste -sd ' ')
expect "all that it can write: $writable" \
    test "$writable" = "/var/lib/private/clock_auction $journal"
for place in /usr /etc /srv/auction /home /root /boot; do
    expect "nothing can be written in $place" cannot_write "$place/x"
done
expect "pages of another auction are gone from nginx's cache" test ! -e /srv/auction/tmp/cache/page

expect "a sheet is accepted" \
    test "$(asked /v1/me/bids -X PUT -d "$sheet")" = '{"accepted":true,"bids":1,"round":1}'
kill -KILL "$process"
within "after SIGKILL it is started again" another_than "$process"
within "and continues with the sheet" keeps
process=$(main_process)
inode=$(stat -c %i $journal)
kill -TERM "$process"
within "after SIGTERM it is started again" another_than "$process"
expect "its journal was rewritten" test "$(stat -c %i $journal)" != "$inode"
within "and continues with the sheet" keeps
systemctl reset-failed $unit
mkdir -p /etc/systemd/system/$unit.d
few='s/--connections 1000000/--connections 3/; s/^ExecStart=/[Service]\nExecStart=\n&/p'
sed ':a; /\\$/{ N; s/\\\n *//; ta }' /etc/systemd/system/$unit | sed -n "$few" \
    > /etc/systemd/system/$unit.d/few.conf
systemctl daemon-reload
systemctl restart $unit
within "with three connections it answers" answers
process=$(main_process)
answers
answers
within "after its last connection it is started again" another_than "$process"
within "and continues with the sheet" keeps
rm -r /etc/systemd/system/$unit.d
systemctl daemon-reload
rm -r /srv/auction/tmp/cache
systemctl restart $unit
within "where nginx has no cache yet it starts all the same" answers
expect "and continues with the sheet" keeps
systemctl stop $unit
expect "it can be stopped" test "$(systemctl is-active $unit)" = inactive
expect "the log tells what the journal has" told_in_log "journal 1 "
inode=$(stat -c %i $journal)
flock $journal sleep 3 &
sleep 1
systemctl start $unit
within "where another has the journal it waits its turn" keeps
expect "and the file was left until then" told_in_log "journal_busy"
command=/usr/bin/auction
conductor=clock-auction-conductor.service
folder=/srv/auction
echo OPERATOROPERATOR > $folder/operator.token
echo secret > $folder/key.pem
cat > "$folder/conductor.json" << END
{"url":"http://127.0.0.1:8105","setup":"setup.json","token":"operator.token","journal":"$journal",
 "drain":2,"between":0,"notice":0}
END
"$command" commit $folder/setup.json $folder/kept $folder/public > /dev/null \
    || fail "the commitment"
tell() { local word=$1; shift; "$command" "$word" "$folder" "$@"; }
reports() { tell status | grep -qF "$1"; }
conducting_process() { systemctl show -p MainPID --value $conductor; }
other_conductor() { local now; now=$(conducting_process); [ "$now" != 0 ] && [ "$now" != "$1" ]; }
cannot_see() { ! nsenter -t "$(conducting_process)" -m -- grep -q secret "$1"; }
systemctl start $conductor
within "the conductor reports" reports "Round 1 has no window"
process=$(conducting_process)
expect "it has one capability" grep -qE '^CapEff:\s0*4$' "/proc/$process/status"
expect "its calls are filtered" grep -qE '^Seccomp:\s2$' "/proc/$process/status"
expect "it cannot see nginx's key" cannot_see $folder/key.pem
expect "it cannot write the set-up" \
    bash -c "! nsenter -t $process -m -- touch $folder/setup.json 2> /dev/null"
expect "its report is for nginx's workers only" \
    test "$(stat -c %a:%G $folder/operator/conductor.json)" = 640:auction-nginx
first=$(( $(date +%s) / 10 * 10 + 20 ))
at() { date -u -d "@$1" +%T; }
cat > "$folder/timetable.json" << END
{"days":[{"date":"$(date -u -d "@$first" +%F)","windows":["$(at $first)-$(at $((first + 10)))"]}]}
END
expect "it takes a timetable" tell plan $folder/timetable.json
within "it opens the window" test -e $folder/gate/$((first / 10))
expect "it sees the sheet" reports "1 of 2 bidders have a sheet in force"
kill -KILL "$process"
within "after SIGKILL it is started again" other_conductor "$process"
within "it closes the round, and the auction has ended" reports "The auction ended after round 1."
digest=$(grep -oE '"digest": ?"[0-9a-f]{64}' $folder/public/rounds/1.json | tail -c 65)
expect "it publishes the digest of the journal" \
    grep -qF "$digest" \
    <(/usr/bin/clock_auction audit --setup $folder/setup.json --journal $journal)
public=$folder/public
modes=$(stat -c %a $public $public/rounds $public/rounds/1.json | paste -sd ' ')
expect "everyone may read what is public" test "$modes" = "755 755 644"
systemctl stop $conductor
receipts=clock-auction-receipts.service
systemctl start $receipts
within "a receipt of the sheet" test -s $folder/receipts/X/1-1.json
process=$(systemctl show -p MainPID --value $receipts)
expect "it has one capability" grep -qE '^CapEff:\s0*4$' "/proc/$process/status"
networks=$(nsenter -t "$process" -n -- ls /sys/class/net 2> /dev/null | grep -v lo)
expect "it has no network" test -z "$networks"
expect "its receipts are for nginx's workers only" \
    test "$(stat -c %a:%G $folder/receipts/X/1-1.json)" = 640:auction-nginx
expect "it cannot write the key" \
    bash -c "! nsenter -t $process -m -- touch $folder/kept/receipts.pem 2> /dev/null"
systemctl stop $receipts
systemctl stop $unit

printf x | dd of=$journal bs=1 seek=20 conv=notrunc status=none
systemctl reset-failed $unit
systemctl start $unit
within "with a damaged journal it is given up" systemctl is-failed $unit
within "and somebody is called" test -s /called
expect "the log tells the fault" told_in_log "fault: journal_unknown"
expect "the log tells what to do" told_in_log "what to do: name the right file"
exposure=$(systemd-analyze security --no-pager $unit 2> /dev/null | tail -n 1 \
    | grep -oE '[0-9.]+ [A-Z]+')
expect "systemd's judgement of what it is exposed to: $exposure" true
echo "the end"
finish

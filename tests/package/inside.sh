#!/bin/bash
# In the container of test_live.py: an auction of the installed package, from `auction init` to the
# removal, with a reboot in a window and an upgrade between two rounds. Three browsers outside bid.
#
# Prints a line for each thing that is as it must be, and ends at the first that is not. systemd
# starts it at each start of the machine, and /phase says where it continues.
#
# shellcheck disable=SC2317  # `expect` and `within` call functions by their names
folder=/srv/auction
journal=/var/lib/private/clock_auction/auction.journal
WINDOW=150 # seconds of round 1, in which the machine reboots
PAUSE=70 # seconds between both windows, in which the package is upgraded
units=(clock-auction clock-auction-nginx clock-auction-conductor clock-auction-receipts
    clock-auction-desk)
export DEBIAN_FRONTEND=noninteractive

seen() { echo "seen: $1"; }
finish() { systemctl poweroff --no-block; exit 0; }
fail() {
    echo "FAILED: $1"
    journalctl -b --no-pager -o cat -n 40
    finish
}
expect() {
    local what=$1
    shift
    if "$@" > /tmp/said 2>&1; then seen "$what"; else cat /tmp/said; fail "$what"; fi
}
within() {
    local what=$1
    shift
    for _ in $(seq 600); do
        if "$@" > /dev/null 2>&1; then seen "$what"; return; fi
        sleep 0.2
    done
    fail "$what, not within 120 s"
}
token() {
    python3 -c 'import json, sys
for bidder in json.load(open("/srv/auction/setup.json"))["bidders"]:
    if bidder["name"] == sys.argv[1]: print(bidder["token"])' "$1"
}
ask() {
    local bidder=$1 path=$2
    shift 2
    curl -sS -m 5 --cacert "$folder/cert.pem" -H "authorization: Bearer $(token "$bidder")" "$@" \
        "https://localhost:8443$path"
}
are_active() {
    local unit
    for unit in "${units[@]}"; do systemctl is-active --quiet "$unit" || return 1; done
}
reports() { auction status "$folder" | grep -qF "$1"; }
have_bid() { reports "$1 of 3 bidders have a sheet in force"; }
asks_the_desk() { curl -sS -f -m 5 -H "@$folder/operator.head" http://127.0.0.1:8106/desk/state; }
the_log_says() { journalctl -b -u clock-auction --no-pager -o cat | grep -qF "$1"; }
spoil() { systemctl stop clock-auction && printf x | dd "of=$1" bs=1 seek=20 conv=notrunc; }
counts() { curl -sS -f -m 5 http://127.0.0.1:8106/metrics | grep -q "^clock_auction_$1 $2$"; }
round_is() { curl -sS -m 5 http://127.0.0.1:8106/v1/status | grep -qF "\"round\":$1,"; }
# Which checks find a fault: only those of this container, which has no clock, disk, or authority of
# its own.
faults() { auction ready "$folder" | sed -n 's/^FAULT  \([^:]*\):.*/\1/p' | paste -sd ,; }
is_ready() { [[ ",$(faults)," =~ ^,(certificate,|clock,|file systems,|space,)*$ ]]; }
at() { date -u -d "@$1" +%T; }
connect() { ip link set host0 up && ip address replace 10.105.9.2/24 dev host0; }

before_the_reboot() {
    expect "the command names its commit" \
        bash -c "auction --version | grep -qE '^commit [0-9a-f]{40}$'"
    expect "the manual is there" test -s /usr/share/man/man8/auction.8.gz
    printf 'name,units,supply,opening\nA,1,2,100\nB,1,2,100\n' > /root/products.csv
    printf 'name,eligibility\nX,2\nY,2\nZ,1\n' > /root/bidders.csv
    rm -rf /root/drawn
    expect "auction init makes a set-up of two spreadsheets" auction init /root/drawn \
        --products /root/products.csv --bidders /root/bidders.csv
    # Without long names: `auction record` refuses public/names.json.
    expect "auction init makes the folder" auction init $folder --host localhost \
        --setup /root/drawn/setup.json
    python3 - << 'END'
import json
path = "/srv/auction/conductor.json"
value = {**json.load(open(path)), "drain": 2, "between": 0, "notice": 0, "publish": 0}
value["missed"] = 50  # percent: a busy machine is slow to reboot, and to upgrade
json.dump(value, open(path, "w"))
END
    expect "the units start with the machine from now on" systemctl enable --now "${units[@]}"
    within "all units run" are_active
    within "bidders get the status" ask X /v1/status
    within "the desk answers the operator" asks_the_desk
    within "the metrics know the server" counts server_gone 0
    within "the metrics know the service of receipts" counts receipts_signed 1
    expect "what nginx writes is in memory" test "$(stat -f -c %T $folder/tmp)" = tmpfs
    expect "no other user can enter the folder" test "$(stat -c %a:%G $folder)" = 750:auction-nginx
    expect "no other user sees who has a receipt" bash -c \
        "! setpriv --reuid nobody --regid nogroup --clear-groups stat $folder/receipts"
    within "auction ready finds no fault but those of a container" is_ready
    first=$(( $(date +%s) / 10 * 10 + 40 ))
    echo "$first" > /first
    printf '{"days":[{"date":"%s","windows":["%s-%s","%s-%s"]}]}' "$(date -u -d "@$first" +%F)" \
        "$(at $first)" "$(at $((first + WINDOW)))" \
        "$(at $((first + WINDOW + PAUSE)))" "$(at $((first + 2 * WINDOW)))" \
        > $folder/timetable.json
    expect "it takes a timetable" auction plan $folder $folder/timetable.json
    within "it opens the window of round 1" reports "Round 1 is open"
    within "X has bid" have_bid 1
    within "X's receipt is signed" ask X /receipts/1/1.json -f
    echo reboot > /phase
    systemctl reboot
    exit 0
}

after_the_reboot() {
    within "after the reboot all units run again" are_active
    within "Y and Z bid in the same window" have_bid 3
    expect "it is still round 1's window" test "$(date +%s)" -lt $(( $(cat /first) + WINDOW ))
    expect "the logs are rotated" logrotate -f /etc/logrotate.d/clock-auction
    expect "there is a new log of requests" test -e $folder/log/access.log.1
    within "nginx writes to it" test -s $folder/log/access.log
    expect "the log of refused sheets stays" bash -c "! ls $folder/log/refused.log?*"
    within "the conductor closes round 1" round_is 2
    within "and publishes it" test -s $folder/public/rounds/1.json
    before=$(systemctl show -p MainPID --value clock-auction)
    expect "the upgrade is installed" dpkg -i /upgrade.deb
    within "after the upgrade all units run" are_active
    expect "the server is another process" \
        test "$(systemctl show -p MainPID --value clock-auction)" != "$before"
    within "and it is still round 2" round_is 2
    within "it opens the window of round 2" reports "Round 2 is open"
    within "all three bid in round 2" have_bid 3
    within "the auction ends" reports "The auction ended after round 2."
    within "and round 2 is published" test -s $folder/public/rounds/2.json
    expect "the record is made" \
        auction record $folder/setup.json $journal $folder/public /root/record
    cd /root/record || fail "the record"
    expect "and verified" \
        bash -c "auction verify setup.json auction.journal . | tail -n 1 | grep -q ^verified:"
    cd /
    within "bidders have seen the end" test -e /ended
    expect "the journal is spoiled" spoil $journal
    systemctl start clock-auction
    within "the log says what the fault means" the_log_says "journal_unknown: the file is not a"
    within "and what to do" the_log_says "what to do: name the right file"
    expect "the package is removed" apt-get remove -y -q clock-auction
    expect "nothing runs any more" bash -c "! pgrep -x clock_auction"
    expect "the journal stays" test -s $journal
    expect "the secrets stay" test -s $folder/kept/chain.json
    expect "the package is purged, and nobody answers" apt-get purge -y -q clock-auction
    expect "the journal stays then too" test -s $journal
    expect "the set-up stays then too" test -s $folder/setup.json
    echo "the end"
    finish
}

expect "bidders can reach this machine" connect
case $(cat /phase 2> /dev/null) in
    reboot) after_the_reboot ;;
    *) before_the_reboot ;;
esac

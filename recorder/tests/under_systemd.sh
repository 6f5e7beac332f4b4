#!/usr/bin/env bash
# Runs the service under a real systemd, by hand: in a container over this machine's /usr with an empty root (systemd-nspawn).
#
#     under_systemd.sh PROGRAMS    # the folder with r10d and r10ctl; half a minute. Status 1 where something is not as it has to be
#
# Tried are: no start without settings; the user; readiness; what the hardening leaves; inputs by UDP and by a pipe; a restart after
# kill -9, eight of them within a minute, and by the watchdog; a reload; whether it may ask about the clock; a stop under load; no
# restart with wrong settings. NSPAWN names another systemd-nspawn.
set -u

top=$(cd "$(dirname "$(readlink -f "${BASH_SOURCE[0]}")")/../.." && pwd)
nspawn=${NSPAWN:-systemd-nspawn}
if [ "$(id -u)" != 0 ] || ! command -v "$nspawn" >/dev/null; then
    echo "under_systemd: NOT TRIED: it wants root, and systemd-nspawn (Debian's package systemd-container)"
    exit
fi
room=$(mktemp -d)
trap 'rm -rf "$room"' EXIT
local=$room/local units=$room/local/lib/systemd/system
mkdir -p "$local/bin" "$local/lib/sysusers.d" "$units" "$room/share"
install -m 755 "${1:?the folder with the programs}/r10d" "$1/r10ctl" "$local/bin"
install -m 644 "$top/recorder/r10d.service" "$units"
install -m 644 "$top/recorder/sysusers.conf" "$local/lib/sysusers.d/r10.conf"
sed 's:2097152:65536:; s/"resume"/"record"/' "$top/recorder/recorder.toml" >"$room/share/recorder.toml"
printf '\n[[channel]]\nid = 13\nkind = "discrete"\nbits = 8\ninput = { lines = "/run/r10/lines" }\n' >>"$room/share/recorder.toml"
cat >"$units/tried.service" <<'UNIT'
[Unit]
After=multi-user.target
[Service]
Type=oneshot
ExecStart=/share/tried
[Install]
WantedBy=multi-user.target
UNIT

cat >"$room/share/tried" <<'TRIED'
#!/bin/bash
exec >/share/said 2>&1
export PATH=/usr/local/bin:$PATH R10_SOCKET=/run/r10/control
ms() { echo $(($(date +%s%N) / 1000000)); }
of() { systemctl show r10d -p "$1" --value; }
must() { [ "$2" = "$3" ] && echo "ok: $1" || echo "FAILED: $1: '$2', wanted '$3'"; }
recording() { until [[ $(r10ctl status 2>/dev/null) == "S 05"* ]]; do sleep 0.01; done; }
must "without settings it is not started" "$(of ActiveState) $(of ConditionResult)" "inactive no"
systemctl disable r10d 2>/dev/null
systemd-sysusers /usr/local/lib/sysusers.d/r10.conf
mkdir -p /etc/r10 /etc/systemd/system/r10d.service.d
cp /share/recorder.toml /etc/r10/recorder.toml
printf '[Service]\nWatchdogSec=3s\n' >/etc/systemd/system/r10d.service.d/watchdog.conf
systemctl daemon-reload
a=$(ms)
systemctl start r10d
must "it says that it is ready" "$? $(of ActiveState)" "0 active"
echo "the start took $(($(ms) - a)) ms"
pid=$(of MainPID)
found=$(ps -o user= -p "$pid") caps=$(sed -n 's/^CapEff:\t//p' /proc/"$pid"/status)
must "it runs as its user, and has no capabilities" "$found $caps" "r10 0000000000000000"
found=$(stat -c '%U %a' /run/r10/control /run/r10/lines /var/lib/r10/medium | tr '\n' ' ')
must "socket, pipe and medium are for user and group" "$found" "r10 660 r10 660 r10 640 "
found=$(r10ctl time | sed -n 's/^KERNEL \([a-z]*\) .*/\1/p')
must "it may ask the kernel whether the clock is right" "$(grep -cx '\(un\)\?synchronised' <<<"$found")" 1
must "and may not set it" "$(setpriv --reuid=r10 --clear-groups --bounding-set=-all date -s @0 2>&1 | grep -c 'not permitted')" 1
for i in $(seq 1000); do printf 'm%07d' "$i" >/dev/udp/127.0.0.1/20005; done
for i in $(seq 100); do echo "states = $i"; done >/run/r10/lines
setpriv --reuid=65534 --regid=r10 --clear-groups sh -c 'echo "states = 200" >/run/r10/lines'
until [[ $(r10ctl figures) == *'"durable":1000,'*'"durable":101,'* ]]; do sleep 0.05; done
echo "ok: 1,000 datagrams and 101 lines are durable, one of another user of the group"
a=$(ms)
kill -9 "$pid"
until [ "$(of NRestarts)" = 1 ]; do sleep 0.01; done
recording
echo "ok: after kill -9 it recorded again within $(($(ms) - a)) ms"
pid=$(of MainPID) a=$(ms)
kill -STOP "$pid"
until [ "$(of NRestarts)" = 2 ]; do sleep 0.05; done
recording
echo "ok: one that stands still is killed after 3 s, and recorded again within $(($(ms) - a)) ms"
sleep 10
must "for ten seconds the watchdog is content" "$(of NRestarts) $(of ActiveState)" "2 active"
pid=$(of MainPID) before=$(r10ctl files | wc -l)
systemctl reload r10d
until journalctl -u r10d --no-pager -o cat | grep -q 'the settings were read anew'; do sleep 0.05; done
must "a reload ends no recording" "$(of MainPID) $(r10ctl files | wc -l)" "$pid $before"
a=$(ms)
for i in $(seq 8); do
    kill -9 "$(of MainPID)"
    until [ "$(of NRestarts)" = $((2 + i)) ]; do sleep 0.01; done
    recording
done
must "after eight kills within a minute it records" "$(($(ms) - a < 60000)) $(of ActiveState)" "1 active"
(while :; do printf o >/dev/udp/127.0.0.1/20005; done 2>/dev/null) &
before=$(r10ctl files | tail -n 1)
sleep 2
must "the load is recorded" "$(r10ctl files | tail -n 1 | grep -cvx -- "$before")" 1
a=$(ms)
systemctl stop r10d
must "it stops under load" "$? $(of Result) $(of ExecMainStatus)" "0 success 0"
echo "the stop took $(($(ms) - a)) ms"
kill %1
cp /var/lib/r10/medium /share/medium
sed -i 's/^blocks.*/blocks = 9/' /etc/r10/recorder.toml
systemctl start r10d 2>/dev/null
sleep 1
must "with wrong settings it is not started again" "$(of ExecMainStatus) $(of NRestarts)" "2 0"
systemd-analyze security r10d.service --no-pager | tail -n 1
journalctl -u r10d --no-pager -o cat >/share/journal
touch /share/done
systemctl poweroff
TRIED
chmod +x "$room/share/tried"
words=(--quiet --register=no --keep-unit --volatile=yes --directory=/ --machine="r10-$$" --private-network)
# (a container refuses to ask about the clock, unless it is let)
words+=("--system-call-filter=adjtimex clock_adjtime")
words+=(--bind-ro="$local:/usr/local" --bind="$room/share:/share" --boot systemd.unit=multi-user.target systemd.firstboot=no)
timeout 300 "$nspawn" "${words[@]}" >"$room/boot" 2>&1 </dev/null
if [ ! -e "$room/share/done" ]; then
    cat "$room/share/said" 2>/dev/null
    tail -n 5 "$room/boot"
    echo "under_systemd: the container did not come to its end"
    exit 1
fi
cat "$room/share/said"
"$top/r10" files <"$room/share/medium"
! grep -q '^FAILED' "$room/share/said"

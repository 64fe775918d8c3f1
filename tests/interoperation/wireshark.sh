#!/usr/bin/env bash
# Runs a script by the proved program (`./pnscript prove` makes it) and writes its frames, those that come in and those that
# are sent, in their order into a capture file for Wireshark; then lists them as tshark reads them, and counts them. Its status
# is 1 where tshark does not read a frame as what its EtherType, its FrameID and its port say (DCP, cyclic data, a PDU of alarms,
# ARP, a call of PROFINET IO, of the controller or of the device, a datagram for another port), finds it malformed or finds a wrong
# checksum, where it finds no call for a response, or no place that a Connect named in a cyclic frame.
# Needs awk, sed, and text2pcap and tshark (Debian: apt-get install tshark).
# Use: tests/interoperation/wireshark.sh SCRIPT FILE.pcapng
set -euo pipefail
here=$(cd "$(dirname "$(readlink -f "$0")")" && pwd)
if [ "${1-}" = --help ] || [ "${1-}" = -h ]; then
    sed -n '2,/^set /{/^set /d;s/^# //;p}' "$here/wireshark.sh"
    exit 0
fi
[ $# -eq 2 ] || { echo "wireshark.sh: it takes a script and the name of a capture file; wireshark.sh --help tells more" >&2; exit 64; }
script=$1
capture=$2
[ -r "$script" ] || { echo "wireshark.sh: there is no script $script to read" >&2; exit 1; }
for tool in awk sed text2pcap tshark; do
    command -v "$tool" >/dev/null || { echo "wireshark.sh: $tool is not on the PATH (Debian: apt-get install tshark)" >&2; exit 1; }
done
program=$(python3 "$here/../../ci/program.py")
printed=$(mktemp)
frames=$(mktemp)
trap 'rm -f "$printed" "$frames"' EXIT
"$program" run < "$script" > "$printed"

# The frames of the script and of its output, one a line in hex, each answer after its request.
conversation() {
    awk -v printed="$printed" '
        function next_line() { has_line = (getline line < printed) > 0 }
        function is_left(pattern) { return has_line && line ~ pattern }
        BEGIN { next_line(); next_line() }                      # after the first boot
        { sub(/\r$/, "") }
        /^(#|$)/ { next }
        $1 == "frame" { print tolower($2) }
        is_left("^off$") { next_line(); next }
        $1 == "restart" { next_line() }
        $1 == "show" { while (is_left("^(name|ip|stored-name|stored-ip|im[1-9]|lamp|phase|output|state) ")) next_line() }
        $1 == "frame" || $1 == "tick" || $1 == "input" || $1 == "alarm" {
            while (is_left("^out ")) { print substr(line, 5); next_line() }
            next_line()                                         # its note, or that power is lost
        }
    ' "$script"
}

# How many frames have this EtherType, with a tag or without, and then this in front of what they carry.
count() {
    grep -cE "^.{24}(8100.{4})?$1" "$frames" || true
}

# How many frames tshark reads as this, with nothing malformed and right checksums.
count_read() {
    tshark -o ip.check_checksum:TRUE -o udp.check_checksum:TRUE -r "$capture" \
        -Y "($1) && !_ws.malformed && !(ip.checksum.status == \"Bad\") && !(udp.checksum.status == \"Bad\")" | wc -l
}

status=0
# Prints a count, by EtherType and port, and what tshark reads. They have to be the same.
compare() {
    echo "$1: $2, read by tshark: $3"
    [ "$2" -eq "$3" ] || status=1
}

conversation > "$frames"
sed 's/../ &/g; s/^/000000/' "$frames" | text2pcap -q - "$capture"
tshark -r "$capture"
alarm='pn_io.pdu_type'
call='0800.{40}(8894.{4}|.{4}8894)'
cyclic='pn_rt.cycle_counter'
is_cyclic='8892([89a].|b[0-9ab]|[c-e].|f[0-7])'
compare 'frames' "$(wc -l < "$frames")" "$(count_read "pn_dcp || $cyclic || $alarm || arp || pn_io.opnum || (udp && !dcerpc)")"
compare 'of DCP' "$(count 8892fef)" "$(count_read pn_dcp)"
compare 'of cyclic data, each with the statuses at the places of its Connect' "$(count "$is_cyclic")" "$(count_read "$cyclic && pn_io.ioxs.datastate")"
compare 'of alarms' "$(count '8892f[ce]01')" "$(count_read "$alarm")"
compare 'of alarms with data' "$(count '8892fc01.{8}11')" "$(count_read "$alarm && (pn_io.block_type == 0x0001 || pn_io.block_type == 0x8001)")"
compare 'of alarms that acknowledge' "$(count '8892fc01.{8}13')" "$(count_read 'pn_io.pdu_type.type == 3')"
compare 'of ARP' "$(count 0806)" "$(count_read arp)"
compare 'calls and responses' "$(count "$call")" "$(count_read pn_io.opnum)"
compare 'calls of ApplicationReady' "$(count "$call.{8}.{2}00.{196}0112")" "$(count_read 'dcerpc.pkt_type == 0 && pn_io.block_type == 0x0112')"
compare 'responses, each after its call' "$(count "$call.{8}.{2}02")" "$(count_read 'dcerpc.pkt_type == 2 && dcerpc.request_in')"
compare 'for another port' "$(($(count 0800) - $(count "$call")))" "$(count_read 'udp && !dcerpc')"
exit $status

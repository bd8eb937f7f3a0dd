#!/usr/bin/env bash
# Lets tshark, a reader that shares nothing with this project, read frames that `encode` wrote.
#
# usage: frames_by_tshark.sh PROGRAM    PROGRAM is the built program
#        frames_by_tshark.sh --by-hand  the frames are put together here instead, to try this script
#
# For every level of both options, and every four-bit code that no level has, each in an information
# and in an event message: a row of three fields where the enhanced code is ff, and one of seven.
# tshark reads them through a classic pcap that text2pcap makes. Its version, event flag, SSM code,
# number of octets, enhanced code, clock, flags and counts have to be those of the row; the codes are
# those of the table below, and not the program's. Ends with status 1 where one differs, or where
# there aren't as many frames as rows. What tshark calls the level stands behind each row and isn't
# compared: it looks at the codes alone, and its names for codes are its own.
#
# Wants tshark and text2pcap, of Wireshark 4: on Debian, apt-get install tshark.
set -euo pipefail

program=${1:?usage: frames_by_tshark.sh PROGRAM}
work=$(mktemp -d)
trap 'rm -rf "$work"' EXIT

# Each level with its four-bit code and its enhanced code, in hexadecimal.
levels_of() {
    if [ "$1" = I ]; then
        echo "QL-ePRTC,2,21 QL-PRTC,2,20 QL-ePRC,2,23 QL-PRC,2,ff QL-SSU-A,4,ff QL-SSU-B,8,ff"
        echo "QL-eEEC,b,22 QL-SEC,b,ff QL-DNU,f,ff"
        echo "code-0,0,ff code-1,1,ff code-3,3,ff code-5,5,ff code-6,6,ff code-7,7,ff code-9,9,ff"
        echo "code-10,a,ff code-12,c,ff code-13,d,ff code-14,e,ff"
    else
        echo "QL-ePRTC,1,21 QL-PRTC,1,20 QL-ePRC,1,23 QL-PRS,1,ff QL-STU,0,ff QL-ST2,7,ff"
        echo "QL-TNC,4,ff QL-ST3E,d,ff QL-eEEC,a,22 QL-ST3,a,ff QL-SMC,c,ff QL-PROV,e,ff QL-DUS,f,ff"
        echo "code-2,2,ff code-3,3,ff code-5,5,ff code-6,6,ff code-8,8,ff code-9,9,ff code-11,b,ff"
    fi
}

# Puts a row, what tshark has to read of its frame, and the frame itself.
# $1 kind, $2 level, $3 code, $4 enhanced code, $5 "" or the number of a row of seven fields
put_row() {
    local event=0 octet=10 source clock flags eeecs eecs
    [ "$1" = event ] && event=1 octet=18
    source=$(printf '02%010x' "$rows")
    if [ -z "$5" ]; then
        echo "$source,$1,$2" >>"$work/rows"
        echo "1,$event,$((16#$3)),60,,,,,," >>"$work/wanted"
        printf '0180c2000002%s88090a0019a70001%s000000010004%02x%064d\n' \
            "$source" "$octet" "$((16#$3))" 0 >>"$work/by_hand"
    else
        clock=$(printf '%02x11223344556677' "$5")
        flags=$(($5 % 4)) eeecs=$(($5 % 256)) eecs=$((255 - $5 % 256))
        echo "$source,$1,$2,$clock,$(printf '%02x' "$flags"),$eeecs,$eecs" >>"$work/rows"
        echo "1,$event,$((16#$3)),60,$((16#$4)),$((16#$clock)),$((flags / 2)),$((flags % 2)),$eeecs,$eecs" \
            >>"$work/wanted"
        printf '0180c2000002%s88090a0019a70001%s000000010004%02x020014%s%s%02x%02x%02x%034d\n' \
            "$source" "$octet" "$((16#$3))" "$4" "$clock" "$flags" "$eeecs" "$eecs" 0 >>"$work/by_hand"
    fi
    rows=$((rows + 1))
}

wrong=0
rows=0
frames=0
: >"$work/frames"
: >"$work/all_wanted"
: >"$work/all_rows"
for option in I II; do
    : >"$work/rows"
    : >"$work/wanted"
    : >"$work/by_hand"
    for level in $(levels_of "$option"); do
        IFS=, read -r name code enhanced <<<"$level"
        for kind in info event; do
            if [ "$enhanced" = ff ]; then put_row "$kind" "$name" "$code" "$enhanced" ""; fi
            put_row "$kind" "$name" "$code" "$enhanced" "$rows"
        done
    done
    if [ "$program" = --by-hand ]; then
        cat "$work/by_hand" >>"$work/frames"
    else
        "$program" encode "$option" "$work/rows" >"$work/encoded" ||
            { echo "encode $option: $(cat "$work/encoded")" >&2; exit 1; }
        cat "$work/encoded" >>"$work/frames"
    fi
    cat "$work/wanted" >>"$work/all_wanted"
    sed "s/^/$option,/" "$work/rows" >>"$work/all_rows"
done

# text2pcap reads hexdumps: an offset of zero begins a packet, and spaces part its octets.
sed -E 's/../& /g; s/^/000000 /' "$work/frames" >"$work/dump"
text2pcap -q -F pcap "$work/dump" "$work/frames.pcap" 2>"$work/messages" ||
    { cat "$work/messages" >&2; exit 1; }
tshark -r "$work/frames.pcap" -T fields -E separator=, \
    -e ossp.esmc.version -e ossp.esmc.event_flag -e ossp.esmc.tlv_ql_ssm -e frame.len \
    -e ossp.esmc.tlv_ext_ql_essm -e ossp.esmc.tlv_ext_ql_clockid \
    -e ossp.esmc.tlv_ext_ql_flag_chain -e ossp.esmc.tlv_ext_ql_flag_mixed \
    -e ossp.esmc.tlv_ext_ql_eeec -e ossp.esmc.tlv_ext_ql_eec \
    >"$work/read" 2>"$work/messages" || { cat "$work/messages" >&2; exit 1; }
tshark -r "$work/frames.pcap" -T fields -e _ws.col.Info 2>"$work/messages" |
    sed 's/.*, //' >"$work/names"

# tshark writes hexadecimal with 0x; a field that it doesn't find is empty
number() { if [ -n "$1" ]; then printf '%d' "$(($1))"; fi; }

echo "option,row: version,event,code,octets,enhanced,clock,chain,mixed,eeecs,eecs"
while IFS=, read -r version event code octets enhanced clock chain mixed eeecs eecs; do
    frames=$((frames + 1))
    found="$(number "$version"),$(number "$event"),$(number "$code"),$octets,$(number "$enhanced"),$(number "$clock"),$(number "$chain"),$(number "$mixed"),$(number "$eeecs"),$(number "$eecs")"
    wanted=$(sed -n "${frames}p" "$work/all_wanted")
    row=$(sed -n "${frames}p" "$work/all_rows")
    name=$(sed -n "${frames}p" "$work/names")
    if [ "$found" = "$wanted" ]; then
        echo "$row: $found agrees; tshark says $name"
    else
        echo "$row: $found differs from $wanted; tshark says $name"
        wrong=$((wrong + 1))
    fi
done <"$work/read"
echo "$frames frames of $rows, $wrong differ"
[ "$frames" = "$rows" ] && [ "$wrong" = 0 ]

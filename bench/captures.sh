#!/bin/sh
# Looks at captures with the tools of Wireshark, which check them by themselves. Of each example script that is walked, tshark takes the
# capture of its frames apart, and has to find as many frames as come out, with times that rise, and each FCS good where the script has a
# good one. Of that of its GFP frames it has to find those that fates doesn't tell to wait, with their rows, each core HEC and type HEC
# good, and each FCS that the script has. A GFP frame with a payload FCS by this repository's definition has to be right to it, and one with another
# FCS wrong; one with the headers of a channel has its CID. Captures that text2pcap and editcap wrote are read by frames, in each form that they write, and in the other order of octets. Nothing
# is installed; what is missing is said. The status is 0 where all is well.
cd "$(dirname "$0")/.." || exit 1
program=$PWD/crates/vcat_walk/out/vcat_walk
[ -x "$program" ] || { echo "captures: $program is missing: run rt ci first" >&2; exit 1; }
for tool in tshark editcap text2pcap perl; do
    command -v "$tool" > /dev/null || { echo "captures: $tool is missing (Debian: tshark, wireshark-common, perl)" >&2; exit 1; }
done
work=$(mktemp -d) || exit 1
trap 'rm -rf "$work"' EXIT
trap 'exit 130' INT
trap 'exit 143' TERM
wrong=0
complain() {
    echo "captures: $*" >&2
    wrong=$((wrong + 1))
}

# Of each line of digits whether its octets end with their FCS. As capture_file has it, so does this: a frame whose FCS isn't right in the
# script is bad in the capture, and no other.
sums() {
    perl -ne '
        chomp; my @octets = map { hex } /../g; my $crc = 0xffffffff;
        for my $octet (@octets) { $crc ^= $octet; $crc = $crc & 1 ? ($crc >> 1) ^ 0xedb88320 : $crc >> 1 for 1 .. 8 }
        print $crc == 0xdebb20e3 ? "1\n" : "0\n"'
}
# The digits of the items of a script whose numbers stand in a file.
items() {
    perl -e '
        open my $numbers, "<", $ARGV[0] or die; my %wanted = map { chomp; $_ => 1 } <$numbers>;
        open my $script, "<", $ARGV[1] or die; my $item = 0;
        while (<$script>) { my @words = split; next unless @words && $words[0] =~ /^(frame|add|remove)$/; print "$words[2]\n" if $wanted{$item}; $item++ }
    ' "$1" "$2"
}

# ---- capture
scripts=0 frames=0 good=0 sent=0 right=0
for script in examples/*.vcat; do
    # The frames of a `stream` stand in no line.
    if grep -q '^stream' "$script"; then continue; fi
    "$program" walk < "$script" > "$work/text" 2> "$work/notes" || continue
    "$program" capture < "$script" > "$work/got.pcap" || complain "$script: no capture"
    scripts=$((scripts + 1))
    count=$(grep -c '^got ' "$work/text")
    tshark -r "$work/got.pcap" -o eth.check_fcs:TRUE -T fields -e frame.time_epoch -e eth.fcs.status > "$work/fields" 2> "$work/notes" ||
        complain "$script: tshark: $(cat "$work/notes")"
    [ "$(wc -l < "$work/fields")" = "$count" ] || complain "$script: $count frames come out, and tshark finds $(wc -l < "$work/fields")"
    sort -n -s -k 1,1 "$work/fields" | cmp -s - "$work/fields" || complain "$script: times fall"
    sed -n 's/^got //p' "$work/text" | sums > "$work/wanted"
    cut -f 2 "$work/fields" | sed 's/Good/1/; s/Bad/0/' | cmp -s - "$work/wanted" || complain "$script: an FCS is not as it should be"
    frames=$((frames + count))
    good=$((good + $(grep -c 1 "$work/wanted")))

    # ---- gfp
    "$program" gfp < "$script" > "$work/sent.pcap" || complain "$script: no capture of GFP frames"
    "$program" fates < "$script" | grep -E '^frame .* (cut|unconfirmed|hunting|unsettled|got) ' > "$work/fates"
    cut -d ' ' -f 2 "$work/fates" > "$work/items"
    items "$work/items" "$script" | sums > "$work/sums"
    cut -d ' ' -f 7 "$work/fates" | awk '{ printf "%d.%06d000\n", $1 * 125 / 1000000, $1 * 125 % 1000000 }' > "$work/times"
    sed 's/.*/1/' "$work/sums" | paste "$work/times" - "$work/sums" | awk '{ print $1 "\t" $2 "\t" $2 "\t" $3 }' > "$work/wanted"
    tshark -r "$work/sent.pcap" -o eth.check_fcs:TRUE -T fields -e frame.time_epoch -e gfp.chec.status -e gfp.thec.status -e eth.fcs.status \
        > "$work/fields" 2> "$work/notes" || complain "$script: tshark: $(cat "$work/notes")"
    sed 's/Good/1/g; s/Bad/0/g' "$work/fields" | cmp -s - "$work/wanted" || complain "$script: tshark finds other GFP frames, times or checks"
    sent=$((sent + $(wc -l < "$work/sums")))
    right=$((right + $(grep -c 1 "$work/sums")))
done
echo "capture: $scripts scripts, $frames frames, $good with a good FCS"
echo "gfp: the same scripts, $sent frames, $right with a good FCS"

# ---- payload FCS
# A GFP frame of 64 octets with a payload FCS, as `fcs` of gfp_fcs has it by its definition, is right to tshark, and one with another FCS is wrong.
with_fcs() {
    perl -e '
        my ($turned) = @ARGV;
        sub check {
            my ($octets, $size, $generator, $crc) = @_; my $all = 2 ** $size - 1;
            for my $bit (split //, unpack("B*", $octets)) {
                my $top = ($crc >> ($size - 1)) & 1; $crc = ($crc << 1) & $all; $crc ^= $generator if $top ^ $bit;
            }
            return $crc;
        }
        my $frame = pack("H*", "02000000000202000000000188b5") . "\x07" x 50;
        my $fcs = ~check($frame, 32, 0x04c11db7, 0xffffffff) & 0xffffffff;
        my $pli = pack("n", length($frame) + 8);
        my $gfp = $pli . pack("n", check($pli, 16, 0x1021, 0)) . pack("H*", "10011352") . $frame . pack("N", $fcs ^ $turned);
        print pack("VvvV4", 0xa1b2c3d4, 2, 4, 0, 0, 65535, 171), pack("V4", 0, 0, length $gfp, length $gfp), $gfp' "$1"
}
for turned in 0 1; do
    with_fcs "$turned" > "$work/fcs.pcap"
    found=$(tshark -r "$work/fcs.pcap" -T fields -e gfp.chec.status -e gfp.thec.status -e gfp.fcs_good 2> "$work/notes" | sed 's/Good/1/g; s/True/1/; s/False/0/' | tr '\t' ' ')
    [ "$found" = "1 1 $((1 - turned))" ] || complain "a payload FCS is to tshark: $found"
done
echo "payload FCS: 1 frame that is right, 1 that is wrong"

# ---- channels
# GFP frames of channels 0, 1 and 255, with the headers that `type_bytes_linear` and `extension_bytes` of gfp_headers have by their definitions: tshark
# reads the channel and finds each check right. The first one begins as that of channel 0 is proved to on a stream (channel_law: worked_law), where
# its core header is combined with a fixed word and its area is scrambled. With another eHEC tshark finds that one wrong alone.
of_channel() {
    perl -e '
        my ($cid, $turned) = @ARGV;
        sub check {
            my $crc = 0;
            for my $bit (split //, unpack("B*", $_[0])) {
                my $top = $crc >> 15; $crc = ($crc << 1) & 0xffff; $crc ^= 0x1021 if $top ^ $bit;
            }
            return $crc;
        }
        my $frame = "\0" x 64;
        my $pli = pack("n", length($frame) + 8);
        my $core = $pli . pack("n", check($pli));
        my $extension = pack("C2", $cid, 0);
        $extension .= pack("n", check($extension) ^ $turned);
        my $gfp = $core . pack("H*", "01012310") . $extension . $frame;
        my $sent = unpack("H*", ($core ^ pack("H*", "b6ab31e0")) . substr($gfp, 4, 6));
        die "channels: the first octets are $sent" if $cid == 0 && $turned == 0 && $sent ne "b6e3f82c010123100000";
        print pack("VvvV4", 0xa1b2c3d4, 2, 4, 0, 0, 65535, 171), pack("V4", 0, 0, length $gfp, length $gfp), $gfp' "$1" "$2"
}
for cid in 0 1 255; do
    for turned in 0 1; do
        of_channel "$cid" "$turned" > "$work/linear.pcap" || complain "no GFP frame of channel $cid"
        found=$(tshark -r "$work/linear.pcap" -T fields -e gfp.chec.status -e gfp.thec.status -e gfp.ehec.status -e gfp.cid 2> "$work/notes" |
            sed 's/Good/1/g; s/Bad/0/g' | tr '\t' ' ')
        [ "$found" = "1 1 $((1 - turned)) $(printf '0x%02x' "$cid")" ] || complain "a GFP frame of channel $cid is to tshark: $found"
    done
done
echo "channels: 3 frames that are right, 3 with a wrong eHEC"

# ---- frames
# Three Ethernet frames without FCS, the second one 250 microseconds after the first, and the third a second after that.
cat > "$work/frames.txt" << 'END'
10:00:00.000000
0000 02 00 00 00 00 02 02 00 00 00 00 01 88 b5 01
10:00:00.000250
0000 02 00 00 00 00 02 02 00 00 00 00 01 88 b5 02
10:00:01.000250
0000 02 00 00 00 00 02 02 00 00 00 00 01 88 b5 03
END
zeros=$(printf '%090d' 0)
cat > "$work/lines" << END
frame 0 02000000000202000000000188b501$zeros
frame 2 02000000000202000000000188b502$zeros
frame 8002 02000000000202000000000188b503$zeros
END
# What frames says of a capture: the lines, but for the FCS of each, or the note.
said() {
    if "$program" frames < "$1" > "$work/said" 2> "$work/notes"; then
        sed 's/.\{8\}$//' "$work/said"
    else
        cat "$work/notes"
    fi
}
expect() {
    said "$1" > "$work/own"
    cmp -s "$work/own" "$work/$2" || complain "$1: $(head -n 1 "$work/own")"
}
text2pcap -q -F pcap -t %H:%M:%S.%f "$work/frames.txt" "$work/micro.pcap" 2> "$work/notes" || complain "text2pcap: $(cat "$work/notes")"
editcap -F nsecpcap "$work/micro.pcap" "$work/nano.pcap"
editcap -F pcapng "$work/micro.pcap" "$work/new.pcap"
editcap -F pcap "$work/new.pcap" "$work/back.pcap"
editcap -F pcap -s 14 "$work/micro.pcap" "$work/short.pcap"
head -c 100 "$work/micro.pcap" > "$work/cut.pcap"
for form in micro nano; do
    perl -0777 -ne '
        print pack("NnnN4", unpack("VvvV4", $_)); my $at = 24;
        while ($at < length) { my @head = unpack("V4", substr($_, $at, 16)); print pack("N4", @head), substr($_, $at + 16, $head[2]); $at += 16 + $head[2] }
    ' "$work/$form.pcap" > "$work/$form.swapped.pcap"
done
echo "fault: head: pcapng" > "$work/newer"
echo "fault: record 0: snapped" > "$work/snapped"
echo "fault: record 2: cut" > "$work/cut"
for form in micro nano back micro.swapped nano.swapped; do expect "$work/$form.pcap" lines; done
expect "$work/new.pcap" newer
expect "$work/short.pcap" snapped
expect "$work/cut.pcap" cut
# The FCS that frames puts behind a frame is good to tshark.
{
    printf 'lines 1\ndelays 0\nring 1\nlag 1\nticks 9000\nadd 0 0\n'
    "$program" frames < "$work/micro.pcap"
} > "$work/script"
"$program" capture < "$work/script" > "$work/got.pcap"
tshark -r "$work/got.pcap" -o eth.check_fcs:TRUE -T fields -e eth.fcs.status 2> "$work/notes" | sort -u > "$work/own"
[ "$(sed 's/Good/1/' "$work/own")" = 1 ] || complain "an FCS of frames is not good to tshark"
echo "frames: 8 captures of text2pcap and editcap"
[ "$wrong" = 0 ]

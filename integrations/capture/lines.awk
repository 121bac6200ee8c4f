# The messages of one TCP connection, a line each, for `diacmd follow`: from TIME PORT SEQ PAYLOAD of its segments, where PORT is the
# port that a segment goes to. `port` is the port of the end that accepted the connection, here 3868 of connection 0:
#   tshark -r capture.pcap -Y 'tcp.stream == 0 && tcp.len > 0' -T fields -e frame.time_relative -e tcp.dstport -e tcp.seq -e tcp.payload |
#       LC_ALL=C sort -s -n -k 1,1 | awk -v port=3868 -f lines.awk > connection.txt
# A message has the time of the segment that makes it whole. A direction that goes on in TLS (a record begins with 16) ends there.

function number(digits,  i, n) {
    for (i = 1; i <= length(digits); i++) n = n * 16 + index("0123456789abcdef", substr(digits, i, 1)) - 1
    return n
}

# Segments wait by the place of their first byte, since they may come twice, overlap, or come too early.
{
    end = $2 == port ? ">" : "<"; place = $3
    if (!(end in next_place)) next_place[end] = place
    if (place < next_place[end]) { $4 = substr($4, 2 * (next_place[end] - place) + 1); place = next_place[end] }
    if (length($4) > length(segment[end, place])) segment[end, place] = $4
    while ((end, place = next_place[end]) in segment && segment[end, place] != "") {
        if (!in_tls[end]) bytes[end] = bytes[end] segment[end, place]
        next_place[end] += length(segment[end, place]) / 2
        delete segment[end, place]
    }
    while (length(bytes[end]) >= 8) {
        if (substr(bytes[end], 1, 2) == "16") {
            print "# " end " goes on in TLS"
            in_tls[end] = 1; bytes[end] = ""
            break
        }
        size = 2 * number(substr(bytes[end], 3, 6))
        if (size < 40 || size > length(bytes[end])) break
        print end, $1, substr(bytes[end], 1, size)
        bytes[end] = substr(bytes[end], size + 1)
    }
}

END {
    for (end in bytes) if (bytes[end] != "") print end, bytes[end]
    for (place in segment) if (segment[place] != "") missing = 1
    if (missing) print "segments are missing: use messages.awk, and follow --middle" > "/dev/stderr"
    if (!NR) print "there are no segments: is the stream that of the connection?" > "/dev/stderr"
    else if (!(">" in next_place)) print "no segment goes to port " port ": is it that of the end that accepted the connection?" > "/dev/stderr"
}

# The messages that tshark finds in a connection, a line each, for `diacmd follow --middle`: where the capture begins in the middle of
# the connection, where packets are missing, and over SCTP. `port` is the port of the end that accepted the connection, here 3868 of
# connection 0:
#   tshark -r capture.pcap -o tcp.reassemble_out_of_order:TRUE --enable-heuristic diameter_tcp -Y 'diameter && tcp.stream == 0' -T json -x -J 'frame tcp sctp diameter' |
#       awk -F '"' -v port=3868 -f messages.awk > connection.txt
# Over SCTP: -Y 'diameter && sctp', with `&& sctp.assoc_index == N` where there are several associations.

$2 == "frame.time_relative" { time = $4 }
$2 == "tcp.dstport" || $2 == "sctp.dstport" { destination = $4 }
is_message { print (destination == port ? ">" : "<"), time, $2; messages++; if (destination == port) accepted = 1 }
{ is_message = $2 == "diameter_raw" }

END {
    if (!messages) print "there are no messages: docs/CAPTURES.md says what to look at" > "/dev/stderr"
    else if (!accepted) print "no message goes to port " port ": is it that of the end that accepted the connection?" > "/dev/stderr"
}

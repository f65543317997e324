#!/bin/sh
# Judges `amt dns` and `amt pcap` by plain models over random octets: tools/plain-octets.sh AMT [INPUTS [SEED]]
# Each script of a capture is replayed besides, and its lines are dumped; a capture of 100,000 records is among them.
exec python3 "$(dirname "$0")/plain_octets.py" "$@"

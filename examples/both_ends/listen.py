"""Prints each packet that a gateway hands on, a line for each, until it is ended.

usage: python3 listen.py ADDRESS:PORT

A packet comes whole, as the payload of a UDP datagram. It needs nothing but Python.
"""
import socket
import sys


def main():
    host, port = sys.argv[1].split(":")
    deliver = socket.socket(socket.AF_INET, socket.SOCK_DGRAM)
    deliver.bind((host, int(port)))
    while True:
        packet = deliver.recv(65535)
        source, group = (socket.inet_ntoa(packet[at : at + 4]) for at in (12, 16))
        # The header of IPv4 says how long it is; that of UDP has 8 octets.
        text = packet[4 * (packet[0] % 16) + 8 :].decode()
        print(f"  {source} to {group}: {text}", flush=True)


main()

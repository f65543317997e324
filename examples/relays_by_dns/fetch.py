"""Sends the query that `amt dns` wrote to a resolver, and prints the answer as one line of hexadecimal digits.

usage: amt dns SOURCE < /dev/null | python3 fetch.py RESOLVER [PORT]

It asks over UDP, and over TCP where the answer was cut.
"""
import socket
import sys


def over_udp(resolver, query):
    family = socket.getaddrinfo(*resolver)[0][0]
    with socket.socket(family, socket.SOCK_DGRAM) as link:
        link.settimeout(5)
        link.connect(resolver)
        link.send(query)
        return link.recv(65535)


def over_tcp(resolver, query):
    with socket.create_connection(resolver, 5) as link:
        link.sendall(len(query).to_bytes(2, "big") + query)
        answers = link.makefile("rb")
        return answers.read(int.from_bytes(answers.read(2), "big"))


def main():
    resolver = (sys.argv[1], int(sys.argv[2]) if len(sys.argv) > 2 else 53)
    word, digits = sys.stdin.readline().split()
    assert word == "query"
    query = bytes.fromhex(digits)
    answer = over_udp(resolver, query)
    if len(answer) > 2 and answer[2] & 2:
        answer = over_tcp(resolver, query)
    print(answer.hex())


main()

#!/usr/bin/env python3
"""Writes the capture text and the order text of a long session of READs, to measure nbdcheck with.

    bench/make_reads.py COUNT OUTSTANDING LENGTH NAME

writes NAME.cap and NAME.ord: a negotiation by GO of an export of 1 MiB, and COUNT requests to read
LENGTH bytes each, of which OUTSTANDING are asked at a time and then answered, each by a simple reply
of zeroes. Not part of the gate.
"""
import sys

SIZE = 1 << 20
FLAGS = 0x006D


def number(value, length):
    return value.to_bytes(length, "big").hex()


def negotiation():
    option, answer = "49484156454f5054", "0003e889045565a9"
    info = "0000" + number(SIZE, 8) + number(FLAGS, 2)
    yield "S " + "4e42444d41474943" + option + number(3, 2)
    yield "C " + number(3, 4)
    yield "C " + option + number(7, 4) + number(6, 4) + "000000000000"
    yield "S " + answer + number(7, 4) + number(3, 4) + number(12, 4) + info
    yield "S " + answer + number(7, 4) + number(1, 4) + number(0, 4)


def request(cookie, length):
    offset = cookie * length % (SIZE - length + 1)
    return "C 2560951300000000" + number(cookie, 8) + number(offset, 8) + number(length, 4)


def main():
    count, outstanding, length = (int(word) for word in sys.argv[1:4])
    zeroes = "00" * length
    with open(sys.argv[4] + ".cap", "w") as capture:
        for line in negotiation():
            print(line, file=capture)
        for first in range(1, count + 1, outstanding):
            cookies = range(first, min(first + outstanding, count + 1))
            for cookie in cookies:
                print(request(cookie, length), file=capture)
            for cookie in cookies:
                print("S 6744669800000000" + number(cookie, 8) + zeroes, file=capture)
    with open(sys.argv[4] + ".ord", "w") as order:
        for number_of_request in range(1, count + 1):
            print(number_of_request, file=order)


main()

#!/usr/bin/env python3
"""Writes a session file of buy limit orders of account ACC in symbol XYZ to standard output.

usage: orders.py [NUMBER]      40,000 orders where no number is given
"""
import sys

TIME = "20240102-10:00:00"


def frame(fields):
    """The FIX 4.4 frame of these fields: BeginString (8), BodyLength (9), the fields, CheckSum (10)."""
    body = "".join(f"{tag}={value}\x01" for tag, value in fields)
    front = f"8=FIX.4.4\x019={len(body)}\x01{body}"
    return f"{front}10={sum(front.encode()) % 256:03}\x01"


def order(number, side=1, units=10):
    """A NewOrderSingle (35=D) to buy 1 to 9 shares at 10.00 to 10.99, or on another Side (54) at so
    many units and as many cents."""
    return frame([
        (35, "D"), (49, "C1"), (56, "GATE"), (34, number), (52, TIME), (11, f"order-{number}"), (1, "ACC"),
        (55, "XYZ"), (54, side), (38, number % 9 + 1), (40, 2), (44, f"{units}.{number % 100:02}"),
        (60, TIME),
    ])


def sell(number):
    """The same to sell at 20.00 to 20.99."""
    return order(number, side=2, units=20)


def main():
    count = int(sys.argv[1]) if len(sys.argv) > 1 else 40_000
    for number in range(1, count + 1):
        sys.stdout.write(order(number))


if __name__ == "__main__":
    main()

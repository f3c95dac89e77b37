#!/usr/bin/env python3
"""Verifies a report: check_report.py FILE [--key HEX].

It prints what `chip verify` prints, and ends with the same status. It shares no code with the chip and wants Python's
standard library alone. docs/FORMATS.md, "Reports", has the layout.
"""

import argparse
import hmac
import re
import struct
import sys

# The versions of reports by their length in bytes. Of version 2 the layout stands behind the version.
VERSIONS = {158: 1, 159: 2}
LAYOUTS = (1, 2)
TAG_LENGTH = 32
LONGEST = 1048576


class Refusal(Exception):
    """A line to print on standard error, and the status to end with."""

    def __init__(self, line, status):
        super().__init__(line)
        self.status = status


def read_file(name, longest=None):
    try:
        with open(name, "rb") as file:
            text = file.read()
    except OSError:
        raise Refusal(f"read fault {name}", 8)
    if longest is not None and len(text) > longest:
        raise Refusal("refused long", 3)
    return text


def read_digits(name, digits, count):
    """The bytes of an option's digits."""
    if not re.fullmatch(f"[0-9A-Fa-f]{{{count}}}", digits):
        raise Refusal(f"usage {name}", 2)
    return bytes.fromhex(digits)


class Report:
    """The fields of a report's bytes. Version 1 has no layout."""

    def __init__(self, report):
        self.layout, fields = (report[1], report[2:]) if report[0] == 2 else (None, report[1:])
        self.measurement, self.input, self.output = fields[:32], fields[32:64], fields[64:96]
        self.retired, self.ending, self.code = struct.unpack_from("<QBI", fields, 96)
        self.nonce = fields[109:125]


def verify(text, device):
    """The report of a text, or the first refusal that holds."""
    digits = text[:-1] if text.endswith(b"\n") else text
    if len(digits) not in (2 * length for length in VERSIONS):
        raise Refusal("refused report 1 Length", 3)
    if not re.fullmatch(b"[0-9A-Fa-f]*", digits):
        raise Refusal("refused report 2 Digit", 3)
    report = bytes.fromhex(digits.decode())
    if report[0] != VERSIONS[len(report)] or report[0] == 2 and report[1] not in LAYOUTS:
        raise Refusal("refused report 3 Version", 3)
    key, signed, tag = hmac.digest(device, b"report", "sha256"), report[:-TAG_LENGTH], report[-TAG_LENGTH:]
    if not hmac.compare_digest(hmac.digest(key, signed, "sha256"), tag):
        raise Refusal("report tag differs", 11)
    return Report(report)


def add_key(parser):
    parser.add_argument("--key", default=bytes(range(32)).hex(), metavar="HEX", help="the device key, 64 digits")


def end(main):
    """Runs a main function, and turns a refusal into its line and its status."""
    try:
        sys.exit(main())
    except Refusal as refusal:
        print(refusal, file=sys.stderr)
        sys.exit(refusal.status)


def main():
    parser = argparse.ArgumentParser(description="Verifies a report.", allow_abbrev=False)
    parser.add_argument("file", metavar="FILE")
    add_key(parser)
    words = parser.parse_args()
    device = read_digits("key", words.key, 64)
    report = verify(read_file(words.file, LONGEST), device)
    print("measurement", report.measurement.hex())
    print("input", report.input.hex())
    print("output", report.output.hex())
    print("retired", report.retired)
    print("ending", report.ending, "code", report.code)
    print("nonce", report.nonce.hex())
    if report.layout is not None:
        print("layout", report.layout)
    return 0


if __name__ == "__main__":
    end(main)

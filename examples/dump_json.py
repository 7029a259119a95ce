#!/usr/bin/env python3
"""Turns a dry-run dump in msgpack into the JSON that `avm_json lines` and `run` read.

    python3 dump_json.py < calls.msgp > calls.json
    python3 dump_json.py < calls.msgp | avm_json run

Algorand's SDKs write msgpack, and so does `goal clerk dryrun --dryrun-dump` without `--dryrun-dump-format=json`.
In msgpack bytes are bytes; in JSON they are base64, and addresses are texts of 58 characters. Texts, numbers and
names stay as they are. Which names a request may have, docs/JSON.md says; nothing is tested here.

It needs Python's package `msgpack`: `apt install python3-msgpack`, or `pip install msgpack`.
"""
import base64
import hashlib
import json
import sys

import msgpack

# The members that are addresses, or arrays of addresses.
ADDRESSES = ("address", "apat", "creator", "rekey", "snd")


def address(key):
    """The text of an address: base32 of its bytes, and of the last 4 bytes of their SHA-512/256."""
    checksum = hashlib.new("sha512_256", key).digest()[-4:]
    return base64.b32encode(key + checksum).decode().rstrip("=")


def as_json(name, value):
    """A value that stands under a name, with texts in place of bytes."""
    if isinstance(value, dict):
        return {key: as_json(key, member) for key, member in value.items()}
    if isinstance(value, list):
        return [as_json(name, element) for element in value]
    if isinstance(value, bytes):
        return address(value) if name in ADDRESSES and len(value) == 32 else base64.b64encode(value).decode()
    return value


def main():
    try:
        dump = msgpack.unpackb(sys.stdin.buffer.read())
        text = json.dumps(as_json("", dump), indent=2, allow_nan=False)
    except (ValueError, TypeError, RecursionError, msgpack.UnpackException):
        dump = None
    if not isinstance(dump, dict):
        sys.exit("This is no dump in msgpack. One that begins with `{` is JSON already.")
    print(text)


if __name__ == "__main__":
    main()

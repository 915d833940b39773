#!/usr/bin/env python3
"""stored.py KEY-FILE FOLDER KEPT: whether each file below the folder is as docs/FORMATS.md says of what other machines get, with a code by that key, or
none where it is empty, and has the bytes of the result that is kept under its digest. Needs zstd. Prints how many results and manifests there are."""
import hashlib
import hmac
import pathlib
import subprocess
import sys

KEY, FOLDER, KEPT = sys.argv[1], pathlib.Path(sys.argv[2]), pathlib.Path(sys.argv[3])
key = pathlib.Path(KEY).read_bytes().rstrip(b"\r\n") if KEY else None
counted = {"r": 0, "m": 0}
for place in FOLDER.rglob("*"):
    if not place.is_file():
        continue
    front, two, rest = place.relative_to(FOLDER).parts
    name, stored = f"{front}-{two}{rest}".encode(), place.read_bytes()
    assert stored[:8] == b"gulmaat\x01", "mark"
    how, size = stored[8], int.from_bytes(stored[9:17], "little")
    assert how in ((0, 1) if key is None else (2, 3)), "how"
    body = stored[17:]
    if key is not None:
        body, code = body[:-32], body[-32:]
        said = len(name).to_bytes(8, "little") + name + stored[:-32]
        assert code == hmac.new(key, said, hashlib.sha256).digest(), "code"
    if how & 1:
        body = subprocess.run(["zstd", "-dcq"], input=body, stdout=subprocess.PIPE, check=True).stdout
    assert len(body) == size, "size"
    assert body[-32:] == hashlib.blake2b(body[:-32], digest_size=32).digest(), "seal"
    if front[0] == "r":
        assert body == (KEPT / "results" / two / rest).read_bytes(), "bytes"
    counted[front[0]] += 1
print(counted["r"], counted["m"])

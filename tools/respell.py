#!/usr/bin/env python3
"""Spells this repository's own names as Rattle spells its own: words in snake case, types in upper camel case.

usage: python3 tools/respell.py [FOLDER]     at the top of a checkout that port.py has turned; runs once

It goes over crates/: .antt, .rt and must-fail edits. Names are turned by token:
  1. a lemma whose name would fall together with a definition's new name gets its dash again (LEMMAS);
  2. the names of OWN, which would fall together with a field of a struct, get a name of their own;
  3. types with a dash lose it (TYPES);
  4. every other name of antt with a part in lower camel case gets that part in snake case (slotIn: slot_in,
     length-bytesOf: length-bytes_of). Names of std have no such part, but for those with a capital behind an underscore, which stay.
"""
import os
import re
import sys

# each was spelled with a dash, and a definition of the other spelling stands beside it
LEMMAS = ["filled_at", "filled_in", "goes_on", "is_state", "limits_of", "one_more", "open_by", "read_taken", "ready_by", "send_by", "wrote_at", "wrote_by"]
OWN = {"maxPayload": "payload_limit", "hasRemote": "has_remote_id", "nextLocal": "next_local_id", "delayedAck": "delayed_ack_name"}
TYPES = ["Comes-back", "Written-says", "Known-says", "Has-bytes", "Frame-says", "Taken-sound", "Reserved-sound", "Readied-sound", "Readied-ids", "Silent-step", "Leaves-offer"]
NEW_TYPES = {"Comes-back": "FrameComesBack"}
MARKED = {"header_of": "header_with"}

TOKEN = re.compile(r"(?<![A-Za-z0-9_'\\])[A-Za-z_][A-Za-z0-9_]*'*(?:-[A-Za-z0-9_]+'*)*")
CAMEL = re.compile(r"^[a-z][a-z0-9']*[A-Z]")


def snake(part):
    part = re.sub(r"([a-z0-9'])([A-Z])", r"\1_\2", part)
    return re.sub(r"([A-Z])([A-Z][a-z])", r"\1_\2", part).lower()


def turned(word, path):
    antt = path.endswith(".antt")
    if antt and word in LEMMAS:
        return word.replace("_", "-")
    if "/marked/specs/" in path or "/marked/proofs/" in path:
        word = MARKED.get(word, word)
    if word in OWN:
        return OWN[word]
    if word in TYPES:
        return NEW_TYPES.get(word) or "".join(p[0].upper() + p[1:] for p in word.split("-"))
    return "-".join(snake(p) if CAMEL.match(p) else p for p in word.split("-"))


def main(top):
    n = 0
    for folder, dirs, files in os.walk(os.path.join(top, "crates")):
        dirs[:] = [d for d in dirs if d != "out"]
        for f in sorted(files):
            if not f.endswith((".antt", ".rt", ".edit")):
                continue
            path = os.path.join(folder, f)
            with open(path, encoding="utf-8") as h:
                old = h.read()
            new = TOKEN.sub(lambda m: turned(m.group(0), path), old)
            if new != old:
                with open(path, "w", encoding="utf-8") as h:
                    h.write(new)
                n += 1
    print(f"{n} files")


if __name__ == "__main__":
    main(sys.argv[1] if len(sys.argv) > 1 else ".")

"""Loads the blocks of a UBF file into a simulated flash, as examples/load.c does.

    python3 examples/load.py FILE.ubf
"""
import os
import sys

sys.path.insert(0, os.path.join(os.path.dirname(os.path.dirname(os.path.abspath(__file__))), "python"))
import zrnkobal


def load(block, flash):
    """Loads one block over a line to a post; answers whether the load is done and the flash is right."""
    before, post, line, shown = bytes(flash), zrnkobal.Post(flash), bytearray(), 0

    def send(data, rate):
        line.extend(post.hear(data))

    def receive(timeout):
        heard = bytes(line)
        line.clear()
        return heard

    def progress(accepted, total):
        nonlocal shown
        if accepted * 4 // total > shown:
            shown = accepted * 4 // total
            print("  packet %d of %d" % (accepted, total))

    try:
        zrnkobal.load(block, send, receive, progress=progress)
    except zrnkobal.Refused as refusal:
        print("  %s" % refusal)
        return False
    right = flash == before[: block.address] + block.image + before[block.address + len(block.image) :]
    print("  done; %s" % ("the range holds the image; all else is untouched" if right else "WRONG: the flash is not as it should be"))
    return right


def main():
    if len(sys.argv) != 2:
        sys.exit("usage: load.py FILE.ubf")
    try:
        with open(sys.argv[1], "rb") as f:
            file = f.read()
    except OSError:
        sys.exit("load.py: %s can't be read" % sys.argv[1])
    flash, count = bytearray(b"\xff" * 262144), 0
    try:
        for block in zrnkobal.blocks(file):
            count += 1
            print("block %d: type %d, length %d" % (count, block.type, len(block.image)))
            if not load(block, flash):
                return 1
    except zrnkobal.Refused as refusal:
        print("block %d: %s" % (count + 1, refusal))
        return 1
    print("%d of %d blocks loaded" % (count, count))
    return 0


if __name__ == "__main__":
    sys.exit(main())

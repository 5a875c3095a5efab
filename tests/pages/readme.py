import hunk

with open("prog", "rb") as opened:
    for segment in hunk.load(opened.read(), base=0x21000):
        print(segment.hex())

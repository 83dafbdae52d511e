"""Reads what was noted: whether the syncs of each folder went on one by one, how they ended, and of how many targets a sync of the folder
began behind the end of its own and ended well before what waits for the target."""
import sys

lines = [line.split() for line in open(sys.argv[1])]
syncs = {}
for folder in ("one", "two"):
    found = [(place, what) for place, (what, name) in enumerate(lines) if name == folder]
    begins, ends = found[::2], found[1::2]
    is_one_by_one = all(what == "begins" for _, what in begins) and all(what != "begins" for _, what in ends)
    print(folder, "one by one:" if is_one_by_one else "beside each other:", *(what for _, what in ends))
    syncs[folder] = [(begin, end) for (begin, _), (end, what) in zip(begins, ends) if what == "ends"]
synced = {name: place for place, (what, name) in enumerate(lines) if what == "ends" and "/" in name}
after = {name: place for place, (what, name) in enumerate(lines) if what == "after"}
served = [name for name in after if any(synced[name] < begin and end < after[name] for begin, end in syncs[name[:3]])]
print("served:", len(served), "of", len(after))

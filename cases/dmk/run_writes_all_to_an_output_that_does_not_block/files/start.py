import os, subprocess, sys, time

reader, writer = os.pipe()
os.set_blocking(writer, False)
child = subprocess.Popen(["timeout", "20"] + sys.argv[1:], stdout=writer)
os.close(writer)
time.sleep(0.3)
size = 0
while got := os.read(reader, 8192):
    size += len(got)
    time.sleep(0.001)
print(size, child.wait())

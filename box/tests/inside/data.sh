# Reads the file `words` by each way that programs have, writes others, and prints the sums of all. `words` has what looks like a signalfd's.
/usr/bin/python3 - <<'E'
import random, struct
signals = struct.pack("128i", *(0 if i % 4 == 2 else 1000 + i for i in range(128))) * 64
open("words", "wb").write(signals + random.Random(1).randbytes(65536) + signals)
E
sha256sum words; cat words | sha256sum; sha256sum < words; md5sum words; cksum words; wc words
for size in 1 16 128 512 4096; do dd if=words of=copy bs=$size count=64 2>/dev/null; sha256sum copy; done
dd if=words bs=128 skip=3 2>/dev/null | sha256sum; tail -c 1000 words | sha256sum; head -c 1000 words | sha256sum
cp words copy; cmp words copy && echo same; tee copy copy2 < words | sha256sum; sha256sum copy copy2
sort words | sha256sum; od -t x4 words | sha256sum; base64 words | base64 -d | sha256sum; tac words | sha256sum
gzip -nc words | gunzip | cmp - words && echo same; tar c --mtime=@0 words | tar xO | sha256sum; split -b 1000 words part; cat part* | sha256sum
sed s/a/b/ words | sha256sum; tr a-m n-z < words | sha256sum; grep -c a words; awk '{ n += length } END { print n }' words
while read -r line; do echo "$line"; done < words 2>/dev/null | sha256sum; mapfile lines < words 2>/dev/null; echo ${#lines[@]}
perl -e 'open F, "words"; binmode F; while (sysread F, $x, 128) { $s = ($s * 31 + unpack "%32C*", $x) % 1000003 } print "$s\n"'
cat > data.py <<'E'
import hashlib, mmap, os, subprocess
with open("words", "rb") as file:
    print(hashlib.sha256(file.read()).hexdigest(), hashlib.sha256(mmap.mmap(file.fileno(), 0, access=mmap.ACCESS_READ)).hexdigest())
parts, file = [], os.open("words", os.O_RDONLY)
while part := os.read(file, 128):
    parts.append(part)
rooms = [bytearray(300), bytearray(700)]
os.lseek(file, 0, os.SEEK_SET)
print(hashlib.sha256(b"".join(parts)).hexdigest(), os.readv(file, rooms), hashlib.sha256(rooms[0] + rooms[1]).hexdigest())
out = subprocess.run(["cat"], input=b"".join(parts), capture_output=True).stdout
print(hashlib.sha256(out).hexdigest(), os.pread(file, 128, 256) == parts[2])
E
/usr/bin/python3 data.py; sha256sum words copy* part* data.py

#!/bin/sh
# The example of README.md. It runs the `guest`, `mkguest` and `mkframes` of the PATH, and leaves its files in the working directory.
set -eu
# ----
awk 'BEGIN { for (i = 0; i < 768; i++) printf "%015d\n", i }' >app.apk      # three blocks of 4096 bytes
mkguest measure app.apk 2a >measure; cat measure                            # 2a: a salt of one byte
mkguest idsig app.apk 2a app.idsig
printf 'parts 1\npart app ro app.apk\npart idsig ro app.idsig\n' >parts
mkguest composite parts disk
printf 'store 1\ncomposite 0 disk\n' >store; : >entropy                     # what the host has
read -r _ blocks salt root <measure
printf 'plan 1\napk 0 app idsig fixed %s %s %s\n' "$blocks" "$salt" "$root" >plan
echo 'read 0 4090 12' | mkframes >frames                                    # one request: item 0, offset 4090, 12 bytes
guest serve plan store entropy tape <frames | od -An -v -tx1
guest replay plan tape entropy <frames | od -An -v -tx1                     # again, from the recorded host
printf 1 | dd of=app.apk bs=1 seek=4096 conv=notrunc 2>/dev/null            # the host changes one bit
guest serve plan store entropy tape2 <frames 2>log | od -An -v -tx1; cat log

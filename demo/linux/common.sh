# What the scripts of this folder share. Sourced from the repository's root, after box/common.sh.

PATH=$PATH:/usr/sbin:/sbin # not in every user's PATH, and depmod, modprobe and mkfs.ext4 live there

out=$PWD/target/demo
unit=$PWD/target/box/$(uname -m)/libtahvenno.a
emulator=$out/qemu-build/qemu-system-aarch64
stamp=$out/built

# The hashes of what emulator and initramfs are made from; they are written to the stamp when both are done.
made_from() { sha256sum demo/linux/build demo/linux/init demo/linux/qemu.patch demo/linux/glue/* include/tahvenno.h "$unit"; }

# Whether the last build came to its end, and nothing that went into it has changed.
built() { [ -x "$emulator" ] && [ "$(cat "$stamp" 2>/dev/null)" = "$(made_from 2>/dev/null)" ]; }

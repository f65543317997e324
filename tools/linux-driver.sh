#!/bin/bash
# This relay with Linux's own gateway, and this gateway with Linux's own relay: tools/linux-driver.sh [COMMAND]
#
# It boots two guests of Debian's kernel under qemu, and runs tools/linux_driver.py there: with the driver built from Debian's
# source as it is (stock), and with the flags where RFC 7450 has them (fixed). COMMAND is the binary of `amt`. The guest sees this
# machine's files, and changes none; it has no network. The processor is emulated, so that it takes some 10 minutes.
#
# It needs root and of Debian 12 qemu-system-x86, busybox-static, cpio, kmod, gcc, make, python3, iproute2, linux-source-6.1,
# linux-headers-amd64 and the package of the same kernel, which it downloads (70 MB) and doesn't install.
set -eu

case ${1:-} in -*) sed -n '2,/^set/s/^# \{0,1\}//p' "$0"; exit ;; esac
tools=$(cd "$(dirname "$0")" && pwd)
amt=$(realpath -m "${1:-$tools/../crates/amt/out/amt}")
[ -f "$amt" ] && [ -x "$amt" ] || { echo "linux-driver.sh: no binary of amt: $amt" >&2; exit 1; }
headers=$(ls -d /usr/src/linux-headers-6.1.*-amd64 | sort -V | tail -n 1)
version=${headers#/usr/src/linux-headers-}
work=$(mktemp -d)
trap 'rm -rf "$work"' EXIT
cd "$work"

apt-get download -qq "linux-image-$version" 2> /dev/null
dpkg-deb -x linux-image-*.deb .
depmod -b . "$version"
tar -xf /usr/src/linux-source-6.1.tar.xz --strip-components 1 --wildcards '*/drivers/net/amt.c' '*/include/net/amt.h'

# module KIND: builds KIND/amt.ko
module() {
    mkdir "$1"
    sed 's,#include <net/amt.h>,#include "amt.h",' drivers/net/amt.c > "$1/amt.c"
    cp include/net/amt.h "$1"
    # Of the bits of an octet the first that is named is the lowest one here.
    [ "$1" = stock ] || perl -0pi -e 's/reserved1:7,\s*p:1,/p:1, reserved1:7,/; s/reserved:6,\s*l:1,\s*g:1,/g:1, l:1, reserved:6,/' "$1/amt.h"
    echo "obj-m := amt.o" > "$1/Makefile"
    make -s -C "$headers" "M=$work/$1" modules > "$1/log" 2>&1 || { cat "$1/log" >&2; exit 1; }
}

# guest KIND: boots a guest with this driver, and prints what the rows are
guest() {
    rm -rf root
    mkdir -p root/bin root/modules
    cp /bin/busybox root/bin
    for name in virtio_pci 9pnet_virtio 9p veth udp_tunnel; do
        modprobe -d . -S "$version" --show-depends $name
    done | awk '$1 == "insmod" && !seen[$2]++ { print $2 }' > needed
    echo "$work/$1/amt.ko" >> needed
    while read -r file; do
        cp "$file" root/modules
        basename "$file" >> root/modules/order
    done < needed
    cat > root/init <<INIT
#!/bin/busybox sh
busybox=/bin/busybox
\$busybox mkdir /proc /host
\$busybox mount -t proc proc /proc
for it in \$(\$busybox cat /modules/order); do \$busybox insmod /modules/\$it; done
\$busybox mount -t 9p -o trans=virtio,version=9p2000.L,msize=262144,cache=loose host /host
\$busybox mount -t proc proc /host/proc
\$busybox mount -t sysfs sysfs /host/sys
\$busybox mount -t devtmpfs dev /host/dev
\$busybox mount -t tmpfs tmpfs /host/run
\$busybox chroot /host /usr/bin/env PATH=/usr/sbin:/usr/bin:/sbin:/bin TMPDIR=/run python3 "$tools/linux_driver.py" $1 "$amt"
\$busybox poweroff -f
INIT
    chmod +x root/init
    (cd root && find . | cpio -o -H newc --quiet) > initramfs
    timeout 1200 qemu-system-x86_64 -accel tcg -cpu max -smp 2 -m 1024 -nographic -no-reboot -nic none \
        -kernel "boot/vmlinuz-$version" -initrd initramfs -append "console=ttyS0 quiet panic=-1" \
        -virtfs local,path=/,security_model=none,mount_tag=host,readonly=on,multidevs=remap < /dev/null > "$1/said" || true
    tr -d '\r' < "$1/said" | grep -aoE "($1: Linux.*|^[0-9]+ passed.*|^[A-Za-z]+Error.*)" || tail -n 20 "$1/said"
    grep -qa "^8 passed, 0 failed" "$1/said"
}

module stock
module fixed
echo "kernel $version"
status=0
for kind in stock fixed; do guest $kind || status=1; done
exit $status

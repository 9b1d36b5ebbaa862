#!/bin/sh
# make.sh: makes rings.tar.xz anew: two heap dumps that a JVM writes of Rings.java, before and after its second ring grows.
# Needs javac, java and jcmd. The classes of the JVM are read anew (-Xshare:off), which makes the dumps a third smaller.
set -e
top=$(cd "$(dirname "$0")" && pwd)
folder=$(mktemp -d)
trap 'rm -rf "$folder"' EXIT
cd "$folder"
javac -d . "$top/Rings.java"
mkfifo lines
java -Xshare:off -XX:+UseSerialGC -Xmx16m -cp . Rings < lines > said &
program=$!
exec 3> lines
# Waits until the program has said a number of times that it is ready, and dumps its heap to a file.
dumped() {
    until [ "$(grep -c ready said)" = "$1" ]; do sleep 0.1; done
    jcmd "$program" GC.heap_dump "$folder/$2"
}
dumped 1 first.hprof
echo >&3
dumped 2 second.hprof
exec 3>&-
wait "$program"
tar -c first.hprof second.hprof | xz -9e > "$top/rings.tar.xz"

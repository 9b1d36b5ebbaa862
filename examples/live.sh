# Prints the lines of a session over 30 seconds: two lists of nodes; after ten seconds it drops the long one, and begins a cycle.
# The classes before its own are those that a viewer looks for.
cat "$(dirname "$0")/java.session"
echo 'class Node 0 next:object'
for i in $(seq 1000); do
    printf 'new 0 %d 15\nstore 0 %d 0 %d\n' $((i % 2)) $((i % 2)) $((1 - i % 2))
done
for i in $(seq 10); do
    printf 'new 0 %d 15\nstore 0 %d 0 %d\n' $((2 + i % 2)) $((2 + i % 2)) $((3 - i % 2))
done
sleep 10
printf 'clear 0 0\nclear 0 1\nsnap\n'
sleep 20

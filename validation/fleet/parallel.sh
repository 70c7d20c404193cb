#!/bin/sh
# GNU parallel over two hosts: two network namespaces of this machine, each with a name and an sshd of its own, which see
# the same files. They are made and taken away here, which needs root. Needs Debian's packages parallel, openssh-server,
# openssh-client and iproute2.
#
#     parallel.sh PROGRAM [COUNT]
. "$(dirname -- "$0")/common.sh"
mark=fl$$
stop() {
    for host in a b; do
        [ ! -f "$folder/$host.pid" ] || kill "$(cat "$folder/$host.pid")" 2> "$folder/none" || :
        ip netns del "$mark$host" 2> "$folder/none" || :
        ip link del "$mark$host" 2> "$folder/none" || :
    done
    rm -rf "$folder"
}
trap stop EXIT
prepare "$@"
mkdir -p /run/sshd
ssh-keygen -q -t ed25519 -N '' -f "$folder/key"
cp "$folder/key.pub" "$folder/authorized"
chmod 600 "$folder/authorized"
number=1
for host in a b; do
    net=10.213.$number
    ip netns add "$mark$host"
    ip link add "$mark$host" type veth peer name eth0 netns "$mark$host"
    ip addr add "$net.1/24" dev "$mark$host"
    ip link set "$mark$host" up
    ip -n "$mark$host" addr add "$net.2/24" dev eth0
    ip -n "$mark$host" link set eth0 up
    ip -n "$mark$host" link set lo up
    ssh-keygen -q -t ed25519 -N '' -f "$folder/host-$host"
    cat > "$folder/sshd-$host" << END
ListenAddress $net.2
HostKey $folder/host-$host
PidFile $folder/$host.pid
AuthorizedKeysFile $folder/authorized
PermitRootLogin yes
StrictModes no
UsePAM no
END
    ip netns exec "$mark$host" unshare --uts sh -c "hostname fleet-$host && exec $(command -v sshd) -f $folder/sshd-$host"
    cat >> "$folder/config" << END
Host fleet-$host
    HostName $net.2
    User root
    IdentityFile $folder/key
    IdentitiesOnly yes
    StrictHostKeyChecking no
    ConnectTimeout 10
    ServerAliveInterval 1
    ServerAliveCountMax 3
    UserKnownHostsFile $folder/known
    LogLevel ERROR
END
    number=$((number + 1))
done
both() {
    tools run-parts "$folder/parts" --engine parallel -j 2 --program "$program" \
        --sshlogin "ssh -F $folder/config fleet-a" --sshlogin "ssh -F $folder/config fleet-b"
}
both
hosts
compare

say "again, and fleet-b is killed midway: its processes at once, and its network"
rm "$folder"/parts/*/result.json "$folder"/parts/*/text
both &
pid=$!
until [ "$(ls "$folder"/parts/*/result.json 2> "$folder/none" | wc -l)" -ge 6 ]; do sleep 0.1; done
ip link set "$mark"b down
ip netns pids "$mark"b | xargs kill -KILL
wait "$pid" || both
hosts
compare

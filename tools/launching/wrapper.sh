# Runs one node on its host, for tools/launch: sh -c TEXT launch DIR TOKEN TEXT_OCTETS LIST_OCTETS PROGRAM PARTITION REPLICA
#
# Standard input has the topology and the list of addresses, and is closed where the node is to end: also where the
# launcher or the connection to it is gone. Standard output has lines `launch: ..`, those of the node, and behind the
# line `launch: ended STATUS octets` its files as an archive, where DIR is not the launcher's own folder.
dir=$1 token=$2 text=$3 list=$4 program=$5 partition=$6 replica=$7
if [ -f "$dir/$token" ]; then
    place=$dir is=shared files=$dir/$partition-$replica
    head -c "$((text + list))" > /dev/null
else
    place=$(mktemp -d "${TMPDIR:-/tmp}/nullsim.XXXXXX") || exit 125
    is=own files=$place/files
    head -c "$text" > "$place/topology.toml" && head -c "$list" > "$place/addresses" || exit 125
fi
mkdir -p "$files" || exit 125
# As it is called here, or else as it is found there.
command -v "$program" > /dev/null || program=nullsim
if ! command -v "$program" > /dev/null; then
    [ $is = shared ] || rm -rf "$place"
    exit 127
fi
echo "launch: $is $(date +%s)"
exec 3<&0
"$program" node "$place/topology.toml" "$files" "$partition" "$replica" "$place/addresses" stats keep < /dev/null 3<&- &
node=$!
# Nothing more comes but the end.
( read -r end <&3; kill "$node" ) > /dev/null 2>&1 &
watch=$!
trap 'kill "$node" 2> /dev/null' HUP INT TERM
wait "$node"
status=$?
kill "$watch" 2> /dev/null
echo "launch: ended $status"
if [ $is = own ]; then
    (cd "$files" && tar cf - .)
    rm -rf "$place"
fi
exit "$status"

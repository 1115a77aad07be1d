#!/bin/bash
# parallel_plan.sh SHARES PROCESSES WORDS..: prints the plan that `icescan plan WORDS..` prints, made by as many processes at
# once, of which each takes one of the shares after the other. A share that fails is taken once more. WORDS end with METADATA;
# `--format` is for `finish` alone. With GNU parallel, `parallel --retries 2 -j PROCESSES` stands in place of xargs.
set -euo pipefail
shares=$1 processes=$2
shift 2
states=$(mktemp -d)
trap 'rm -rf "$states"' EXIT
taken=()
for word; do
    case $word in --format=*) ;; *) taken+=("$word") ;; esac
done

take() {  # STATES SHARES WORDS.. K: the state of share K, under its name only once it is whole
    local states=$1 shares=$2 k=${!#} words=("${@:3:$#-3}")
    for attempt in 1 2; do
        if icescan take --part "$k/$shares" "${words[@]}" > "$states/$k.part"; then
            mv "$states/$k.part" "$states/$k.state"
            return 0
        fi
    done
    return 255  # xargs stops
}
export -f take

seq "$shares" | xargs -P "$processes" -n 1 bash -c 'take "$@"' take "$states" "$shares" "${taken[@]}"
icescan finish "$@" "$states"/*.state

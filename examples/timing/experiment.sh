#!/usr/bin/env bash
# Prints the plan of the experiment of docs/TIMING.md, a command a line: eleven kernels and two variants of them on
# machines that differ from one-cluster in one thing each. Results go to the folder timing/.
set -eu
cd "$(dirname "$0")/../.."
kernels=()
for name in matmul sieve sort prefix jacobi join search bfs sha256_flat lcs ntt; do
    kernels+=("examples/kernels/$name.job")
done
plan() {
    python/wsc-plan plan --out timing --jobs "$@"
}
plan "${kernels[@]}" examples/kernels/matmul_two.job examples/kernels/sha256.job --do '--verify --waves {1,2,4,16}'
plan "${kernels[@]}" \
    --do '--verify --placement-policy {turn,block-pod,random}' \
    --do '--verify --element-entries {4,16}' \
    --do '--verify --cache-line 4 --cache-sets {1,16}' \
    --do '--verify --buffer-queues 4' \
    --do '--verify --width-pod 1 --width-domain 1 --width-cluster 1 --width-between 1 --width-buffer 1' \
    --do '--verify --clusters 16' \
    --do '--verify --threads 4 --clusters {1,4,16}' \
    --do '--verify --threads 4 --clusters 16 --buffer-homes {turn,table}'

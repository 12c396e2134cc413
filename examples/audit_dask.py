"""Audits log.jsonl by Dask, which maps each partition of a bag: `cat results/*` is in the order of the log."""

import subprocess

import dask.bag


def audited(lines):
    part = "".join(lines).encode(errors="surrogateescape")
    done = subprocess.run(["odb_batch", "match", "--strict", "--lines"], input=part, stdout=subprocess.PIPE)
    if done.returncode not in (0, 1):
        raise RuntimeError(f"odb_batch ended with status {done.returncode}")
    return [done.stdout.decode()]


if __name__ == "__main__":
    log = dask.bag.read_text("log.jsonl", blocksize="64MiB", linedelimiter="\n", errors="surrogateescape")
    log.map_partitions(audited).to_textfiles("results/*.jsonl")

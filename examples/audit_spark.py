"""Audits log.jsonl by Spark, which maps each partition of a table. The results of one file are in its order; several files
are read by size."""

import subprocess

from pyspark.sql import SparkSession


def audited(rows):
    part = b"".join(bytes(row.line) + b"\n" for row in rows)
    done = subprocess.run(["odb_batch", "match", "--strict", "--lines"], input=part, stdout=subprocess.PIPE)
    if done.returncode not in (0, 1):
        raise RuntimeError(f"odb_batch ended with status {done.returncode}")
    return done.stdout.decode().split("\n")[:-1]


spark = SparkSession.builder.getOrCreate()
log = spark.read.text("log.jsonl", lineSep="\n").selectExpr("cast(value as binary) as line")
log.rdd.mapPartitions(audited).saveAsTextFile("results")

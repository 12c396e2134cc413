module odb_batch/odb

go 1.19

module consumer

go 1.19

require odb_batch/odb v0.0.0

replace odb_batch/odb => ../../../go

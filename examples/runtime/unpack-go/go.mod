module unpack

go 1.19

require gimowheta.example/inroot v0.0.0

replace gimowheta.example/inroot => ../../../bindings/go

module example.org/coniks/client

go 1.19

require (
	example.org/coniks v0.0.0
	filippo.io/edwards25519 v1.0.0
)

replace example.org/coniks => ../

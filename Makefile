.PHONY: play mixed-wall salvage check test
# the play program on the sample session
play:
	@tools/prove play
	@tools/bytes <tests/session.hex | tools/run play

# the example of a wall of both profiles and both kinds
mixed-wall:
	@tools/prove mixed_wall
	@tools/run mixed_wall

# the salvage program on a sample image
salvage:
	@tools/prove salvage
	@tools/bytes <tests/flooded.hex | tools/run salvage

# every day: the house, all proofs and the programs; after a change only what it touches
check:
	@tools/layout
	@tools/prove
	@tests/run

# everything the gate checks
test:
	.ci/run

include rig/rig.mk
include rig/install.mk

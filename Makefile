# Two commands for a newcomer: `make rehearse` rehearses a job, `make test` runs all tests.
# JOB is a job file or a text, at any path; PART is the folder of a part, or nothing for the part of `rehearse`.
JOB = crates/rehearse/stdin
PART =
export JOB PART

.PHONY: rehearse explain station test bench times
rehearse explain: station
	@target/bin/station $@ $${PART:+--part "$$PART"} -- "$$JOB"

# The operators' tool. What it stands on is proved first, which takes some minutes where nothing was proved before.
station:
	@scripts/station

test:
	@scripts/test

# The proved job run and job writer beside plain ones: nanoseconds and ratios.
bench:
	@scripts/bench

# When each crate's proof was done in the gate, proving all anew, and how many must-fail edits it has.
times:
	@scripts/times

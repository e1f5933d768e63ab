# make test: the second program's checks, whether the test lines and the pictures are their scripts' own, the gate, then the callers.
# make callers: proves and builds the library for C, and runs callers in C, Rust and Python and the manual's examples.
# make bench: proves and builds the library for C, then measures it beside two C programs and the stock systems that are installed.
# ./calculate runs the calculator.
.PHONY: test callers bench
test:
	python3 second/selftest.py
	python3 second/vectors.py --check
	python3 second/lines.py --check
	python3 docs/pictures.py --check
	.ci/run
	callers/run
callers:
	callers/run
bench:
	bench/run

# The scripts of tools/, as a table of contents: `make` alone prints it. They run the built program (./compaan build, or
# ./compaan build --unproved) or that of COMPAAN, and fail where something isn't as wanted.

T = tools

list:
	@sed -n 's/^\([a-z]*\): *## /  make \1\t/p' Makefile | expand -t 18

.PHONY: list examples docs pages script c isl report edits hardware hostile checks bench

examples: ## every command on the examples, beside answers computed otherwise and the same loops in C
	$T/examples/check.py && $T/examples/reference.py && $T/examples/steps.py

docs: ## what the pages show, link to and have printed in them, and which test shows what of memory
	$T/docs/check.py && $T/docs/ample.py

pages: ## prints into the pages what is made of the sources: the definitions, the map with its picture, numbers
	$T/docs/pages.py --program --write && $T/docs/layers.py --svg > docs/layers.svg

script: ## the script ./compaan, without any program
	$T/test_compaan.py

c: ## ./compaan c on kernels in C, beside the C compiler
	$T/check_c.py

isl: ## the sources of deps beside isl's own analysis
	$T/check_isl.py && $T/check_isl.py --random 100

report: ## the pages of ./compaan report in headless Chromium
	$T/check_report.py

edits: ## whether each edit of the crates can still be applied
	$T/edits.py check

hardware: ## the networks of the examples in GHDL, in both texts, and whether planted faults are told
	$T/hardware/simulate.py && $T/hardware/designs.py && $T/hardware/faults.py

hostile: ## what the program asks for, failing streams, refused memory, the limits, random programs
	$T/hostile/calls.py && $T/hostile/devices.py && $T/hostile/memory.py && $T/hostile/limits.py && $T/hostile/fuzz.py

checks: ## whether each of these can fail, by planted faults
	$T/test_checks.py

bench: ## time and memory of every command beside its peers: a table, and no test
	$T/bench/all.py

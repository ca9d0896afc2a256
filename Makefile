# test: the whole gate. open: the sample sheet, opened by the proved program. docs: whether the pages name what is there. second: the
# second implementation's lines alone.
# lib: the outside interface as target/lib/libropeshadow.a and .so. outside: the archive and the program against the second
# implementation, real producers and documents of Office (installs Debian packages, fetches 90 MB). fuzz: ten minutes of libFuzzer on it
# (installs clang). Both leave their record in docs/EVIDENCE.md.
# bench: times beside other implementations, the table of docs/SPEED.md, docs/speed.svg (needs libssl-dev). map: docs/map.svg from
# crates.txt.
.PHONY: test open docs second lib outside fuzz bench map

test:
	.ci/run

open:
	tools/open

docs:
	tests/docs/check

second:
	tests/second/compare

lib:
	tools/lib

outside:
	tests/outside/run

fuzz:
	tests/outside/fuzz

bench:
	bench/run

map:
	tools/map

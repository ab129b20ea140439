# One door to the scripts. `make help` lists what can be asked for.
PREFIX ?= /usr/local

.PHONY: all help prove test test-c test-go test-python test-rust test-node test-java test-page test-package test-examples \
    test-release test-hostile gate fmt lint house package release install bench

all: ## the programs from their sources, without proofs and with run-time checks: two minutes (also: make)
	bin/build --unproved jp
	bin/build --unproved jp_lines_main

help: ## this list
	@sed -n 's/^\([a-z-]*\):.*## /  make \1:/p' Makefile | awk -F: '{ printf "%-22s%s\n", $$1, substr($$0, length($$1) + 2) }'

test: ## all tests without proofs, in minutes: bin/test; bin/test CRATE [TEST] runs one
	bin/test
prove: ## proves and builds the programs that bin/jp and bin/jp-lines run from then on: half an hour
	bin/build jp
	bin/build jp_lines_main
gate: ## everything: the tests without proofs, all proofs, the edits that must fail, and the tests below: hours
	.ci/run

test-c test-go test-python test-rust test-node test-java test-page test-package test-examples test-hostile install release: prove
test-c: ## the library for C, proved
	bindings/test c
test-go: ## the package for Go, over the proved library
	bindings/test go
test-python: ## the package for Python, over the proved library
	bindings/test python
test-rust: ## the crate for Rust, over the proved library
	bindings/test rust
test-java: ## the archive for Java, over the proved library
	bindings/test java
test-node: ## the package for Node, of the proved library
	page/test node
test-page: ## the same and the page in Chromium
	page/test
test-package: ## the Debian package of the proved programs and library
	packaging/test
test-release: release ## a release, put together twice, unpacked elsewhere, and each part run there
	packaging/test-release
test-examples: ## the examples of the pages by the proved programs
	.ci/examples
test-hostile: ## runs of the proved programs where memory, stack or streams fail
	bin/build jp_hostile
	hostile/run
	hostile/lines
	hostile/queries
	hostile/decimals
	hostile/steps
	hostile/json
	hostile/readers

fmt: ## the code in Rattle, as rt fmt writes it
	for it in crates/*/; do (cd "$$it" && rt fmt) || exit; done
lint: ## shellcheck, flake8, clang-format, gofmt, go vet, node and rustfmt on all else; names and heads of the crates
	.ci/lint
	.ci/words
house: ## docs/HOUSE.md, docs/OUTER.md, the pages of the crates and the picture in README.md, from the files
	.ci/house --write
package: ## the Debian package, in packaging/out
	bin/package
release: ## all parts for all languages in one folder, with sums and licences: out/release/jp-VERSION
	bindings/build
	page/build
	packaging/release
install: ## the proved programs with their pages below PREFIX, and the library if bindings/build made it
	bin/install "$(PREFIX)"
bench: ## jp and jp-lines, proved, beside jq and a program by hand
	bench/run

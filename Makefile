# Every command of the repository under one roof: `make help` lists them. Each is a line of some script, which can be called by itself.
.PHONY: help try draft test build install man lint pages python index tags check edits plants gate cost bench doubling signals random

CRATE ?= ceal_base
FILE ?= examples/inc.ceal
FOLDER ?= $(HOME)/.local/bin
BINARY = crates/ceal/out/ceal

help: ## this list
	@grep -hE '^[a-z]+:.*## ' Makefile | sed -E 's/^([a-z]+):.*## (.*)/  make \1\t\2/' | expand -t 18

try: ## runs FILE=examples/inc.ceal and prints its replies (no proof is needed)
	./run $(FILE)

test: ## runs every test that needs no proof
	./run --test

draft: ## compiles the program and the server once, with no proof, and keeps them in draft/
	./run --draft

build: ## proves and builds the program and the server (some 90 minutes of processor time)
	./run --build

install: ## copies the proved program and server to FOLDER=~/.local/bin, with the record of their proof
	./run --install $(FOLDER)

man: ## writes out/ceal.1, the manual page of the program, from the tables of docs/SCRIPT.md
	mkdir -p out
	python3 -B -m tools.manual > out/ceal.1

lint: ## the lint, and whether pages, examples and rows agree (seconds)
	.ci/house
	.ci/documents

pages: ## makes again what is derived: sessions, pictures and excerpts of pages, rows of examples, lines of the reading path
	.ci/documents --write
	.ci/references --write
	.ci/crates --write
	.ci/reading --write

python: ## lays out all Python as black does
	.ci/python --write

index: ## writes out/index.html: all definitions, laws and clauses, with who cites them
	.ci/index

tags: ## sets a tag of git for each version of CHANGELOG.md; one with no commit beside it is the state that it is first called in
	@sed -nE 's/^## ([0-9.]+) - [-0-9]+( \(([0-9a-f]+)\))?$$/v\1 \3/p' CHANGELOG.md | while read tag commit; do \
	    if [ -n "$$commit" ]; then git tag -f $$tag $$commit; \
	    else git rev-parse -q --verify refs/tags/$$tag > /dev/null || git tag $$tag; fi; \
	done

check: ## proves CRATE=ceal_base and the crates below it, over what earlier checks kept
	cd crates/$(CRATE) && rt check

edits: ## tries the wrong bodies of CRATE=ceal_base, which its contracts must refuse
	rt must-fail $(CRATE)

plants: ## tries many more wrong bodies of CRATE=ceal_base, and writes its row of .ci/plants.md (long)
	.ci/plants $(CRATE)

gate: ## the merge gate: all proofs, edits, tests and programs, and then the lint and the tests (long)
	bash .ci/run

cost: ## the gate, with the processor minutes of each crate (long)
	.ci/cost

bench: ## measures the built program (docs/PERFORMANCE.md)
	bench/run

doubling: ## gives the built programs what is chosen to be slow, at three sizes, and long sessions
	bench/doubling.py

signals: ## measures three jobs beside public libraries of signals, on an idle machine
	bench/signals.py

random: ## random edits of the examples by the built program, beside runs from scratch
	python3 -m tools.random_tests $(BINARY)

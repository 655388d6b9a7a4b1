# Short names for common tasks. CONTRIBUTING.md explains each task and how long it takes.
.PHONY: help check test part edits gate graph release package links

help:
	@echo 'make check C=crate    prove one crate'
	@echo 'make test             test the built program'
	@echo 'make test PART=name   run one module of tests, as orders or kills'
	@echo 'make part P=name      run one part of the tests inside the process, as cards'
	@echo 'make edits C=crate    try the wrong bodies of one crate'
	@echo 'make gate             the merge gate'
	@echo 'make graph            draw docs/crates.svg'
	@echo 'make release          build the program and pack it into dist/'
	@echo 'make package          pack dist/ and the clients into out/, as a .deb and an archive'
	@echo 'make links            check the links of all pages'

check:
	cd crates/$(or $(C),$(error which crate? make check C=vcard_text)) && rt check

test:
	./test $(PART)

# Needs crates/test_all/out/test_all, which `make gate` builds.
part:
	cd crates/test_all/data && echo "part $(or $(P),$(error which part? make part P=cards))" | ../out/test_all

# Runs the edits that the gate runs, and then the edits that are only run by hand.
edits:
	rt must-fail $(or $(C),$(error which crate? make edits C=book_model))
	[ ! -d sweeps/edits/$(C) ] || python3 sweeps/edits.py $(C)

gate:
	.ci/run

graph:
	tools/graph

release:
	tools/release

package:
	tools/package

links:
	tools/check-links

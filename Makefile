# What can be run here. `make` alone lists it.
list:
	@awk -F ':.*## ' '/^[a-z]+:.*## / { printf "make %-9s %s\n", $$1, $$2 }' Makefile

program: ## proves what changed and builds the program
	./build
prove: ## proves every crate that changed with all that stands on it, side by side, and runs the tests
	rt ci
gate: ## every proof, wrong body, test and outside check
	.ci/run
checks: ## the outside checks; PARTS="lines saves" runs two of them, compare/run --list names them
	compare/run $(PARTS)
wrong: ## wrong bodies, each of which the prover has to refuse; CRATE=fit_files runs those of a crate
	compare/run wrong_bodies$(if $(CRATE),/$(CRATE))
fuzz: ## mutated files, killed replays and refused memory, which the gate leaves out
	compare/fuzz && compare/kill && compare/memory
release: ## the folder release/ of what is here
	./build-release
shared: ## libfitrec.so
	./build-shared
wheel: ## the wheel of the Python package, in out
	mkdir -p out && ./build-shared out && python/build-wheel out/libfitrec.so out
page: ## the page, in web/out
	web/build
device: ## the objects for devices, in device/out
	device/build
bench: ## rows as in docs/PERFORMANCE.md; NAMES="save show" measures two
	bench/run $(NAMES)
words: ## the man page and the completions
	completions/make
profile: ## the tables of the Profile of fit_profile
	crates/fit_profile/make
install: ## the program, the page and the libraries, under PREFIX
	./install $(PREFIX)

.PHONY: list program prove gate checks wrong fuzz release shared wheel page device bench words profile install

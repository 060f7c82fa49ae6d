# `make run` builds all, replays the sample and sells a lot of it; `make test` proves and tests all; `make bench` measures beside QuickFIX;
# `make install` takes PREFIX and DESTDIR; `make pictures` draws docs/pictures anew.
.PHONY: run test bench install pictures
run:
	@./scripts/build-gateway
	@./scripts/run-program target/c/selkavorn replay --instruments 3809512,3809644,3810077 target/c/morning.fix
	@echo
	@./scripts/run-program target/c/selkavorn sell --quantity 15 --instrument 3809512 target/c/morning.fix
test:
	@./scripts/test
bench:
	@./scripts/bench
install:
	@PREFIX="$(PREFIX)" DESTDIR="$(DESTDIR)" ./scripts/install-files
pictures:
	@./scripts/pictures

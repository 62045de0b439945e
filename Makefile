# make run      prints the program's answer for a small history; where it isn't built yet, by a trial build that proves nothing,
#               in two minutes on 4 processors, and that is 100 times slower than the program
# make build    proves what isn't proved yet and builds the program, crates/tcc/out/tcc
# make checker  proves and builds the check alone, crates/tcc_checker/out/tcc_checker, and of the searches the judge's alone
# make install  the same as make build, and copies it to PREFIX/bin (PREFIX=/usr/local), its man page and bash completion to PREFIX/share
# make dist     builds it and packs it with man page, completion, recipes and what they need into out/tcc-VERSION-x86_64-linux.tar.gz,
#               which runs wherever there is a C library of glibc 2.34 or later, as on Debian 12
# make demo     records clients of a real Redis and shows both answers, and those of tcc watch while the clients work
# make demo-postgres   records those of a real PostgreSQL, at two levels of isolation and at a replica
# make demo-galera     those of three nodes of MariaDB with Galera: reads at another node, with and without wsrep_sync_wait
# make demo-etcd       those of three nodes of etcd: reads that are stale by its own revisions are those that are found
# make demo-zookeeper  those of three nodes of ZooKeeper: reads at another node, with and without sync, and at one node
# make demo-nats       those of three nodes of NATS JetStream: reads that any replica answers, and those of the leader
# make format   formats the sources of each crate, which the gate asks for
# make test     the merge gate and all tests, which CONTRIBUTING.md lists; the last line is `N passed, M failed`
# make quick    rows, package, scripts and documents on the built program, or on a trial build where it isn't built from these sources
#
# The toolchain's `rt` has to be on the path, and Python 3; for `make test` a C compiler too, for `make demo` redis-server and
# redis-py, for `make demo-postgres` PostgreSQL and psycopg2, for `make demo-galera` MariaDB with Galera, rsync and PyMySQL, for `make demo-etcd` etcd,
# for `make demo-zookeeper` ZooKeeper, Java and Kazoo, for `make demo-nats` nats-server. Nothing has to be done before.

PREFIX ?= /usr/local
# How many proofs run side by side; by default as many as there are processors.
JOBS ?= $(shell nproc)

TCC = crates/tcc/out/tcc
DIST = out
HISTORY = ../../examples/long-fork.csv
CHECKED = ../../examples/stale-read.csv ../../examples/stale-read.certificate
UNPROVED = the program is not built from these sources yet: this is a trial build of them (two minutes on 4 processors), of which \
nothing is proved, and 100 times slower than the program; make build proves and builds that

.PHONY: run build checker install dist pack demo demo-postgres demo-galera demo-etcd demo-zookeeper demo-nats format test quick

# Whether the program is built, and no older than a source.
IS_BUILT = { test -x out/tcc && test -z "$$(find ../../crates.txt ../*/src ../*/specs ../*/proofs -newer out/tcc -print -quit)"; }

run:
	@cd crates/tcc && \
	if $(IS_BUILT); \
	then out/tcc explain < $(HISTORY); \
	else echo '$(UNPROVED)' >&2; rt try -- explain < $(HISTORY); fi

# The crates side by side, those that most others wait for first and by several jobs; then the program runs on its stored
# records. What was proved before and has not changed since is not proved again.
build:
	@cd crates/tcc && if ! $(IS_BUILT); then python3 ../../tests/build.py --jobs $(JOBS) tcc >&2; fi

# What checks answers, and nothing that finds them.
checker:
	@cd crates/tcc_checker && python3 ../../tests/build.py --jobs $(JOBS) tcc_checker check $(CHECKED) >&2

install: build
	install -D -m 755 crates/tcc/out/tcc '$(DESTDIR)$(PREFIX)/bin/tcc'
	install -D -m 644 docs/tcc.1 '$(DESTDIR)$(PREFIX)/share/man/man1/tcc.1'
	install -D -m 644 docs/tcc.bash '$(DESTDIR)$(PREFIX)/share/bash-completion/completions/tcc'

dist: build pack

# Packs what is built: the same bytes for the same files.
PACKED = LICENSE-APACHE LICENSE-MIT README.md CHANGELOG.md CONTRIBUTING.md docs tests/README.md tests/rows/README.md examples recipes python
pack:
	@version=$$($(TCC) --version | cut -d' ' -f2) && name=tcc-$$version-x86_64-linux && folder=$$(mktemp -d) && \
	mkdir -p $$folder/$$name/tests/rows $(DIST) && \
	install -m 755 $(TCC) $$folder/$$name/tcc && \
	for one in $(PACKED); do cp -R $$one $$folder/$$name/$$one; done && \
	find $$folder -name __pycache__ -prune -exec rm -r {} + && \
	tar -C $$folder --sort=name --owner=0 --group=0 --numeric-owner --mtime=2000-01-01 -cf - $$name | gzip -n > $(DIST)/$$name.tar.gz && \
	rm -r $$folder && echo $(DIST)/$$name.tar.gz

demo:
	@python3 recipes/redis/demo.py

demo-postgres:
	@python3 recipes/postgres/demo.py

demo-galera:
	@python3 recipes/galera/demo.py

demo-etcd:
	@python3 recipes/etcd/demo.py

demo-zookeeper:
	@python3 recipes/zookeeper/demo.py

demo-nats:
	@python3 recipes/nats/demo.py

format:
	@for crate in crates/*/; do (cd $$crate && rt fmt > /dev/null) || exit 1; done

# With MINUTES=N no mutant's check begins later than that.
test:
	@python3 tests/run.py $(if $(MINUTES),--minutes $(MINUTES))

quick:
	@cd crates/tcc && if $(IS_BUILT); then python3 ../../tests/quick.py; else echo '$(UNPROVED)' >&2; python3 ../../tests/quick.py --trial; fi

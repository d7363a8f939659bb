# make run      the main job on the example data: the report of two uploads under the sample table,
#               and one rider's statement with its reasons. If no proved program is there, a trial
#               is built and run, and it says so
# make trial    builds the three programs without a proof: out/trial/NAME. Nothing is proved of them,
#               and they are slow
# make build    proves the three programs and all crates below them, up to three side by side, with a
#               line for each crate, and builds the programs: crates/NAME/out/NAME. What rt says is in
#               out/build.log. scripts/proof_minutes then writes docs/PROOF_MINUTES.md
# make install  the three proved programs, their manual pages and completions, the documents for
#               users, the index of all contracts, the example, what others do with a ledger (sql,
#               viewer, audit), and the HTTP front, into DESTDIR/PREFIX; PREFIX is /usr/local if not
#               given. tests/installed tries it
# make test     everything that must pass: the layout, what the documents say of the sources, the share
#               of comments, the index of contracts (out/contracts), no lemma proved once more, what
#               must not compile, the proofs, the tests, the mutants in must-fail/, the stored runs, and
#               then the cases of the built program and the settled week
# make wrong    all mutants, those in wrong/ too: the proof of the function that it changes must reject
#               each. Some crates alone: make wrong CRATES="tap_views fare_table"
# make model    the turn protocol of a shared book in Spin: no worker sleeps for ever, and one at a
#               time has the book. The fare rule as a program, on random lists of taps and tables.
#               tests/model/README.md says what the models have
# make hostile  memory, reads, writes, threads and the seed refused one at a time, in every place
# make bench    one table of speed and memory, live and settled, beside Rust without proofs, within
#               ten minutes, and a tap's instructions if valgrind is there. If no proved program is
#               there, a trial is built and measured, and it says so
# make agencies what the programs print of the agencies in examples/agencies: reports, statements,
#               amounts, and what the checkers say of the ledgers
# make audit    the checkers of ledgers over the example, some zones, a generated week and spoilt
#               ledgers
# make sql      the example's ledger in SQLite and in PostgreSQL, an auditor's questions, those that
#               know the fare table too, and journals for hledger
# make viewer   the page that shows a ledger, in headless Chromium
# make serve    the HTTP front over the proved programs, on the loopback address: each status, nights,
#               kill -9 under load, uploads and questions at once, and the rider's page in Chromium
# make cluster  3 million taps over 8 parts: on this machine, on Slurm and on Dask, with a machine
#               lost in the middle; then what may go wrong. docs/GUIDE.md says more
#
# run, trial, build, test and wrong need the toolchain (rt, which needs Python 3), make and bash.
# model needs spin and gcc. hostile also needs a C compiler, bench also rustc. audit needs Python
# 3.11. sql needs sqlite3 and viewer needs chromium. serve needs python3-aiohttp of Debian, and for the
# page chromium. cluster needs Slurm and Dask, and root for Slurm. If these are not there, model, sql,
# viewer, serve and cluster say so in a line and are skipped.

.PHONY: run trial build install test wrong model hostile bench agencies audit sql viewer serve cluster

PREFIX ?= /usr/local

run:
	@scripts/run_example

trial:
	@scripts/build_trial

build:
	@scripts/build_programs

install:
	@scripts/install_programs "$(DESTDIR)" "$(PREFIX)"

# RT_JOBS is how many proofs rt ci runs at once, each with one job. If it is not set, rt ci shares the
# idle processors among all tasks that are ready. Where a crate ends, these are the next proof, its
# tests and the last crate's wrong bodies, so one proof still gets one job of four processors. It also
# plans with two to three times the memory that checks take, so it runs one or two at once in 23 GB.
# So RT_JOBS is the processors, at most four, and at most one for each 3 GB. With fewer the proofs
# wait, and more slow down the longest chain. It is not set where one crate's proof can get several
# jobs: from 8 processors on, with 7 GB for each.
#
# The last line of the output is the verdict of rt ci: the cases are silent if all is well.
test:
	@scripts/check_layout
	@scripts/check_documents
	@scripts/comment_share
	@tests/comment_share
	@scripts/index_contracts
	@scripts/private_definitions
	@scripts/repeated_lemmas
	@scripts/unused_crates
	@tests/proof_minutes
	tests/must_not_compile
	@scripts/version
	@n=$$(nproc) && gb=$$(awk '/^MemAvailable/ { print int($$2 / 1e6) }' /proc/meminfo) && \
	if [ "$$n" -lt 8 ] || [ "$$gb" -lt $$((7 * n)) ]; then \
	    n=$$((n < 4 ? n : 4)) gb=$$((gb / 3 > 1 ? gb / 3 : 1)); \
	    export RT_JOBS=$${RT_JOBS:-$$((n < gb ? n : gb))}; \
	fi && rt ci
	@scripts/version
	@tests/program_cases
	@tests/agencies
	@tests/tool_manners
	@tests/text_forms
	@tests/settled_week

wrong:
	@scripts/wrong_bodies $(CRATES)

model:
	@tests/model/run

hostile:
	@tests/hostile/refuse

bench:
	@bench/run

agencies:
	@tests/agencies

audit:
	@ledgers/audit/run

sql:
	@ledgers/sql/run

viewer:
	@ledgers/viewer/test

serve:
	@tests/serve/run

cluster:
	@cluster/try

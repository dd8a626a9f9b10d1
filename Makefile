# make        proves what the program stands on, several crates at a time, and leaves the program as bin/vmemd
# make try    compiles the program and runs it on examples/first.script, with no proof: a minute or two;
#             make try SCRIPT=FILE runs another script
# make quick  leaves a program at full speed as bin/vmemd-quick, with no proof: a minute or two
# make test   the gate: every proof from nothing, the tests, the edits of must-fail/ and gate-edits/, the program's
#             cases, random scripts against a slow model, growths refused in turn, the Python client's tests
# make edits  tries all edits, those of more-edits/ too, of JOBS=1 crates at a time, several
#             in a check; make edits CRATE=NAME tries one crate's
# make cases  runs bin/vmemd on tests/cases
# make starve refuses each growth of memory in turn, and the server's threads, files, listening and
#             connections, in what make test left; make test tries each run's first 40 and every fifth then
# make bench  measures bin/vmemd beside another server (bench/README.md); BENCH="--most 1000000"
# make bench-serve  measures its server beside Redis, where that is there, and beside a bound (bench/README.md), and has
#             a Prometheus server, where that is there, look at it for a minute
# make page   takes pictures of the page that shows a server, at two widths: it needs chromium (tools/page)
# make install PREFIX=/usr/local DESTDIR=  puts bin/vmemd, its pages and a systemd unit in place
# make clean  removes what was built

.PHONY: all try quick test edits cases starve bench bench-serve page install clean

SCRIPT = examples/first.script
JOBS = 1
PREFIX = /usr/local
BENCH =

all:
	tools/build
	cd crates/vmemd && rt run -- script < stdin > /dev/null
	mkdir -p bin
	cp crates/vmemd/out/vmemd bin/vmemd

try:
	@tools/try $(SCRIPT)

quick:
	@tools/quick bin/vmemd-quick

# rt ci leaves the programs that it proved and ran under crates/vmemd/out, and the libraries that edits are tried over.
# RT_JOBS has it prove each crate by one job as soon as a processor is free: otherwise it lets the first crates have
# several jobs, whose memory the crate that most others wait for then lacks.
test:
	tools/layers
	tools/protocol
	tools/edits --apply-only
	tools/edits --drop-stale
	RT_JOBS=$${RT_JOBS:-$$(nproc)} rt ci; proved=$$?; tools/program_tests; ran=$$?; tools/test_edits; tool=$$?; \
	tools/edits --gate --jobs $$(nproc); edits=$$?; test "$$proved $$ran $$tool $$edits" = "0 0 0 0"

edits:
	tools/edits --jobs $(JOBS) $(CRATE)

cases: all
	tools/cases bin/vmemd

starve:
	tools/starve; parts=$$?; tools/starve_serve; served=$$?; test "$$parts $$served" = "0 0"

bench:
	test -x bin/vmemd || $(MAKE) all
	bench/run $(BENCH) bin/vmemd

bench-serve:
	test -x bin/vmemd || $(MAKE) all
	bench/serve $(BENCH) bin/vmemd
	VMEMD=$(CURDIR)/bin/vmemd VMEMD_SECONDS=60 PYTHONPATH=clients/python \
	  python3 -m unittest test_watch.Watched.test_prometheus_has_the_sums

page:
	tools/page --browser
	test -x bin/vmemd || $(MAKE) all
	tools/page bin/vmemd bin

# (it installs what make has left as bin/vmemd, so that no proof runs as root)
install:
	test -x bin/vmemd || { echo "there is no bin/vmemd: make builds it" >&2; exit 1; }
	install -d $(DESTDIR)$(PREFIX)/bin $(DESTDIR)$(PREFIX)/libexec
	install -m 755 bin/vmemd $(DESTDIR)$(PREFIX)/bin/vmemd
	install -m 755 packaging/vmemd-hold $(DESTDIR)$(PREFIX)/libexec/vmemd-hold
	for n in 1 5; do \
	  page=$(DESTDIR)$(PREFIX)/share/man/man$$n/vmemd.$$n; \
	  install -D -m 644 /dev/null $$page && tools/manpage docs/vmemd.$$n.md > $$page || exit 1; done
	install -d $(DESTDIR)$(PREFIX)/share/doc/vmemd
	install -m 644 examples/README.md examples/first.script examples/*.conf clients/python/vmemd.py \
	  clients/python/vmemd_top.py $(DESTDIR)$(PREFIX)/share/doc/vmemd
	unit=$(DESTDIR)$(PREFIX)/lib/systemd/system/vmemd.service; \
	  install -D -m 644 /dev/null $$unit && \
	  sed 's,@PREFIX@,$(PREFIX),g' packaging/vmemd.service.in > $$unit

clean:
	rm -rf bin .build-* crates/*/out

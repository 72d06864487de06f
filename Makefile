# The switch, its demonstration and its benchmark. Each needs the Rattle toolchain (`rt` on the path) and no network.

.PHONY: build look demo plan bench lab check install uninstall dist deb clean FORCE

# The proved program. The first build proves each crate (README.md says how long that takes); where the program was built
# from these very sources, by `make` or by the gate, it is taken as it is.
build: build/savi_switch

build/%: FORCE
	@tools/build $*

# The examples, replayed by a build that isn't proved. About half a minute.
look:
	@tools/look

# Replays of the examples: a host that attacks and its router, a link of five ports, and three links whose sources are
# validated. The first time takes the build, a later one a second.
demo: build
	@tools/demo

# Reads a configuration, and prints its plan or what is wrong with it and what to write instead: make plan PLAN=FILE. It
# takes Python 3.11 and no build. Names of files are relative to the folder of the plan.
PLAN = examples/validation-spoofed-data/plan.toml
plan:
	@tools/plan --folder "$(dir $(PLAN))" "$(PLAN)"

# The program beside a C program that does the same octet work without judging, with 2 ports and with 5, in time and in
# instructions; live, beside a hub in C; its own load; the check of a journal beside the replay that wrote it; a history that
# turns beside one that holds it all, of a replay and live; the start with the greatest plan; the reader of captures beside
# tcpdump; the pass lock beside a mutex; the stations, the bindings and the timers beside hash maps; and steps of the core,
# with the validation of sources and without. Then one table, beside C and, with make bench BEFORE=PROGRAM, beside that
# program, and with what is aimed at. The first time takes the builds, and then some minutes, longer with BEFORE.
BEFORE =
bench: build build/capture_bench build/lock_bench build/fdb_bench build/tables_bench build/core_bench
	bench/all build/savi_switch $(if $(BEFORE),--before "$(BEFORE)")

# Attacks on real kernels in network namespaces, over a plain bridge and over the program, live; as root, behind `make
# build`: lab/README.md.
lab:
	lab/lab

# The merge gate: `rt ci`, then the examples, and the program beside the second implementation. docs/BENCHMARK.md says how
# long it takes.
check:
	.ci/run

# Installs the program with its stamp, the tools and what they read by (Python 3.11 or later), manual pages, documents, the
# examples, and units of systemd: make install PREFIX=/usr DESTDIR=DIR. Nothing is built here: `make build` comes before, and
# a program that isn't proved is refused. It is installed where it is named: make install
# UNPROVED=build/unproved/savi_switch.
PREFIX = /usr/local
DESTDIR =
PROGRAM = build/savi_switch
UNPROVED =
VERSION := $(shell cat VERSION)
bin = $(DESTDIR)$(PREFIX)/bin
lib = $(DESTDIR)$(PREFIX)/lib/savi_switch
doc = $(DESTDIR)$(PREFIX)/share/doc/savi_switch
man = $(DESTDIR)$(PREFIX)/share/man
units = $(DESTDIR)$(PREFIX)/lib/systemd/system
users = $(DESTDIR)$(PREFIX)/lib/sysusers.d
folders = $(DESTDIR)$(PREFIX)/lib/tmpfiles.d

# The tools, of tools/ and of lab/; a tool NAME is run as savi-NAME. They are laid out as here, with what they read by. Of
# the second implementation, and of what the tools share, the parts that only checks and replays read stay here.
TOOLS = $(notdir $(wildcard $(addprefix tools/,plan plan-from-learn journal-table journal-picture tell-journal panel ctl journal-keep)))
PACKAGES = reading tools/tool_parts tools/switch_panel
KEPT = $(addprefix reading/,audit.py checking.py conf_runs.py core_runs.py failing_calls.py learn.py line_runs.py live.py \
	load.py making.py making_ipv4.py pcapng.py session.py) \
	$(addprefix tools/tool_parts/,crate_list.py flooding.py plan_cases.py random_ipv4.py random_learn.py serving.py toml_cases.py)
UNITS = $(notdir $(wildcard packaging/*.service packaging/*.socket packaging/*.target packaging/*.timer packaging/*.path))
PAGES = $(notdir $(wildcard docs/*.1 docs/*.5 docs/*.8))
# Tools whose manual page has another name.
SAME_PAGE = savi-journal-picture savi-tell-journal

# Puts the folder and the version into a text: $(call put,FROM,TO)
put = sed 's|/usr/local|$(PREFIX)|g; s|@VERSION@|$(VERSION)|g' "$(1)" > "$(2)" && chmod 644 "$(2)"

install:
	@mkdir -p build && tools/program-stamp $(if $(UNPROVED),"$(UNPROVED)" --unproved,"$(PROGRAM)") > build/stamp
	install -d "$(bin)" "$(lib)" "$(doc)" "$(units)" "$(users)" "$(man)/man1" "$(man)/man5" "$(man)/man8"
	install -m 755 $(if $(UNPROVED),"$(UNPROVED)","$(PROGRAM)") "$(bin)/savi_switch"
	install -m 644 build/stamp VERSION "$(lib)"
	$(foreach package,$(PACKAGES),install -d "$(lib)/$(package)" && \
		install -m 644 $(filter-out $(KEPT),$(wildcard $(package)/*.py $(package)/*.html)) "$(lib)/$(package)" &&) true
	install -m 755 $(TOOLS:%=tools/%) lab/shim "$(lib)/tools"
	for tool in $(TOOLS) shim; do ln -sf "../lib/savi_switch/tools/$$tool" "$(bin)/savi-$$tool" || exit 1; done
	tools/install-documents "$(doc)"
	$(foreach unit,$(UNITS),$(call put,packaging/$(unit),$(units)/$(unit)) &&) true
	$(foreach page,$(PAGES),$(call put,docs/$(page),$(man)/man$(subst .,,$(suffix $(page)))/$(page)) &&) true
	for page in $(SAME_PAGE); do ln -sf savi-journal-table.1 "$(man)/man1/$$page.1" || exit 1; done
	ln -sf savi-plan.1 "$(man)/man1/savi-plan-from-learn.1"
	install -m 644 packaging/savi_switch.sysusers "$(users)/savi_switch.conf"
	$(if $(wildcard packaging/*.tmpfiles),install -D -m 644 packaging/savi_switch.tmpfiles "$(folders)/savi_switch.conf")
	@echo "savi_switch $(VERSION) is installed in $(DESTDIR)$(PREFIX)$(if $(UNPROVED),. IT ISN'T PROVED: $(UNPROVED))"
	@cat "$(lib)/stamp"

# Removes what `make install` put there, by the same PREFIX and DESTDIR, and below DESTDIR the folders that are left empty.
uninstall:
	rm -f "$(bin)/savi_switch" $(TOOLS:%="$(bin)/savi-%") "$(bin)/savi-shim"
	rm -f "$(users)/savi_switch.conf" "$(folders)/savi_switch.conf"
	rm -f $(UNITS:%="$(units)/%") $(foreach page,$(PAGES),"$(man)/man$(subst .,,$(suffix $(page)))/$(page)")
	rm -f $(SAME_PAGE:%="$(man)/man1/%.1") "$(man)/man1/savi-plan-from-learn.1"
	rm -rf "$(lib)" "$(doc)"
	@test -z "$(DESTDIR)" || { cd "$(DESTDIR)" && \
		rmdir -p --ignore-fail-on-non-empty $(FOLDERS:%=".$(PREFIX)/%"); } 2> /dev/null || true

FOLDERS = bin lib/systemd/system lib/sysusers.d lib/tmpfiles.d share/man/man1 share/man/man5 share/man/man8 share/doc

# An archive of the sources as they are committed, build/savi_switch-VERSION.tar.gz: the same commit gives the same octets.
dist:
	@mkdir -p build
	git archive --format=tar --prefix=savi_switch-$(VERSION)/ HEAD | gzip -9n > build/savi_switch-$(VERSION).tar.gz
	@sha256sum build/savi_switch-$(VERSION).tar.gz

# A Debian package of the program that is there, in the folder above: packaging/debian/README.source. It takes debhelper.
deb:
	SAVI_UNPROVED="$(UNPROVED)" dpkg-buildpackage -b -us -uc

clean:
	rm -rf build

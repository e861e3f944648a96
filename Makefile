# What a person does with this repository. `make` alone shows the targets with a line `target: ## what it does`.

.PHONY: help run build list work try check test gate hostile linux loads clean

# Shows what there is to make.
help: ## shows this
	@echo 'Targets. Those with a star need the Rattle toolchain, whose command is `rt`. Times are for four idle cores.'
	@sed -n 's/^\([a-z-]*\):[^#]*## \(.*\)/  \1|\2/p' Makefile | awk -F'|' '{ printf "%-18s %s\n", $$1, $$2 }'

# A script, by its path from here.
SCRIPT ?= examples/first.script

# The built program: where `make build` leaves it, or what the variable PIDTAB names.
PIDTAB ?= crates/pidtab/out/pidtab

# Where the library is made, and what runs a test of it: packaging/machine has others for other machines.
OUT = out
RUN =

# What cannot go on without the toolchain says so.
define need_rt
@command -v rt > /dev/null || { echo 'The Rattle toolchain (its command is `rt`) is not on the PATH: it proves and compiles this repository.' \
	'It comes as the kit rattle-kit-13b or rattle-kit-13f: add the folder bin of that kit to the PATH.' >&2; exit 1; }
endef

define need_script
@test -f '$(SCRIPT)' && test -r '$(SCRIPT)' || { echo 'no script $(SCRIPT): name one by SCRIPT=FILE' >&2; exit 1; }
endef

# A command of the program on the script: by the program that was built, or else by a build that is not proved.
define played
$(need_script)
@if test -x '$(PIDTAB)'; then '$(PIDTAB)' $(1) < '$(SCRIPT)'; else $(MAKE) -s try COMMAND=$(1); fi
endef

run: ## answers SCRIPT (examples/first.script): by the proved program where it is built, else as `make try`
	$(call played,run)

list: ## shows the table that SCRIPT leaves, as `make run` does
	$(call played,list)

# Compiled once, and again when a source changes. What the tools say is in out/try.log.
TRIED = out/unproved/pidtab
$(TRIED): crates.txt $(wildcard crates/*/src/*.rt)
	@echo 'compiling the program without proofs: some two minutes' >&2
	@mkdir -p out/unproved
	@tools/unproved pidtab $@ > out/try.log 2>&1 || { echo 'make try failed: see out/try.log' >&2; exit 1; }

COMMAND = run
try: ## * answers SCRIPT by a build that is not proved, kept as out/unproved/pidtab: do not rely on it (some 2 minutes once)
	$(need_script)
	$(need_rt)
	@$(MAKE) -s $(TRIED)
	@echo 'this build is not proved, `make build` proves it' >&2
	@'$(TRIED)' $(COMMAND) < '$(SCRIPT)'

# What the tools say is in out/build.log.
build: ## * proves and builds the program, crates/pidtab/out/pidtab (some 40 minutes from nothing)
	$(need_rt)
	@mkdir -p out
	@tools/prove pidtab out/build.log rt run -- run < /dev/null || { echo 'make build failed: see out/build.log' >&2; exit 1; }
	@echo crates/pidtab/out/pidtab

# Who comes first is the machine's choice.
work: built ## runs two workers on one table, each with a script of its own
	@'$(PIDTAB)' work examples/worker0.script examples/worker1.script

# CHECK may name crates, and --jobs N.
check: ## * runs all tests and worked scripts on builds that are not proved (up to 10 minutes)
	$(need_rt)
	@tools/check $(CHECK)

# What it says at its end is in out/gate.txt, with the commit and the sum of the program.
test: ## * the gate: proves every crate from nothing, tries the edits that must be refused, runs the tests (30 to 50 minutes on four idle cores)
	$(need_rt)
	@tools/report out/gate.txt crates/pidtab/out/pidtab -- $(MAKE) --no-print-directory gate

# What the gate may cost, in processor minutes: tools/gate says on which machine. It is to come to 160.
GATE_MINUTES = 205

# The steps of the gate. Two look at the C around the library, which is not proved. The last is hostile to the programs that were built.
# `rt ci` takes no links.
gate:
	@for it in $$(find out -type l 2> /dev/null | head -n 1); do echo "$$it is a link, which the gate does not take: remove it, or run make clean" >&2; exit 1; done
	@tools/architecture --check
	@tools/pages --check
	@tools/widths --check
	@tools/names --check
	@tools/walk --check
	@tools/gate --check
	@tools/gate --budget $(GATE_MINUTES)
	@tools/guard --check
	@tools/interface --check
	@bindings/c/test_guard
	rt ci
	@$(MAKE) -s hostile

# It proves and builds nothing: `make test` builds both programs; `make build` builds the one, and `rt run < stdin` in crates/demo_no_memory the other.
hostile: ## refuses the built programs memory at each growth in turn, has their devices fail, and plays `stored/` (a minute)
	@for it in pidtab demo_no_memory; do test -x crates/$$it/out/$$it || { echo "no program crates/$$it/out/$$it: make test builds it" >&2; exit 1; }; done
	@$(MAKE) -s -C hostile check

# Each row of docs/LINUX.md, and 200 random scripts. It needs root or user namespaces.
linux: built ## compares the table with real processes; as root, or with user namespaces
	@$(MAKE) -s -C linux check
	@linux/page --check
	@linux/compare --rows
	@linux/compare --seeds 1..200

# Each load of loads/loads.py at its sizes, beside the figures of a peer.
loads: built ## what a call costs, by instructions; with valgrind (some minutes)
	@loads/loads.py measure '$(PIDTAB)' $(LOADS)

clean: ## removes all that was built, and what the checker has kept
	rm -rf crates/*/out out
	rm -rf service/target
	@$(MAKE) -s -C linux clean
	@$(MAKE) -s -C hostile clean

.PHONY: built install install-library uninstall

PREFIX ?= /usr/local
LIBDIR ?= $(PREFIX)/lib
INCLUDEDIR ?= $(PREFIX)/include
MANDIR ?= $(PREFIX)/share/man
PYTHONDIR ?= $(PREFIX)/share/pidtab/python
INSTALL ?= install
PROGRAMS = pidtabctl pidtab-tree pidtab-check pidtab-play pidtab-replay pidtab-keep pidtab-compare pidtab-top
MODULES = $(patsubst bindings/python/%,%,$(wildcard bindings/python/pidtab/*.py bindings/python/pidtab/*/*.py) bindings/python/pidtab/py.typed)
COMPLETIONS = bash-completion/completions/pidtabctl zsh/site-functions/_pidtabctl fish/vendor_completions.d/pidtabctl.fish
# The functions that a manual page names at its head, each of which has a manual page by its name.
NAMED = sed -n 's/^\.Nm \(pidtab_[a-z_]*\).*/\1/p'
FUNCTIONS = $(shell $(NAMED) man/*.3)
HEADERS = pidtab.h pidtab_saved.h pidtab_replica.h host_calls.h
MANUALS = $(foreach page,$(wildcard man/*.$(1)),'$(DESTDIR)$(MANDIR)/man$(1)/$(notdir $(page))')
BINARIES = $(DESTDIR)$(PREFIX)/bin
SHARED_FILES = $(DESTDIR)$(PREFIX)/share/pidtab

# The built library, if there is one.
BUILT_LIBRARY = $(wildcard out/libpidtab.so.1)

# The description for pkg-config, in which folders below the prefix stay so. Its version is that of the release.
RELEASE = $(shell cat VERSION 2> /dev/null)
in_prefix = $(subst $(PREFIX)/,$${prefix}/,$(1))
describe = sed 's|^prefix=.*|prefix=$(PREFIX)|; s|^libdir=.*|libdir=$(call in_prefix,$(LIBDIR))|; s|^includedir=.*|includedir=$(call in_prefix,$(INCLUDEDIR))|; \
	s|^Version:.*|Version: $(RELEASE)|' bindings/c/pidtab.pc.in

built:
	@test -x '$(PIDTAB)' || { echo 'no program $(PIDTAB): build it with `make build`' >&2; exit 1; }

# The program, the programs beside it with their package, and the manual pages; and the library, where `make lib` has built it. It builds nothing.
install: built $(if $(BUILT_LIBRARY),install-library) ## installs what is built below PREFIX (/usr/local)
	$(INSTALL) -d '$(BINARIES)' '$(SHARED_FILES)' '$(DESTDIR)$(MANDIR)/man1' '$(DESTDIR)$(MANDIR)/man5'
	$(INSTALL) -m 755 '$(PIDTAB)' '$(BINARIES)/pidtab'
	$(INSTALL) -m 755 $(PROGRAMS:%=bindings/python/bin/%) '$(BINARIES)'
	sed -i 's|^FOLDERS = (\(.*\))$$|FOLDERS = (\1, Path("$(PYTHONDIR)"))|' $(PROGRAMS:%='$(BINARIES)/%')
	for it in $(MODULES); do $(INSTALL) -D -m 644 bindings/python/$$it '$(DESTDIR)$(PYTHONDIR)'/$$it || exit 1; done
	$(INSTALL) -m 644 LICENSE '$(SHARED_FILES)'
	for it in $(COMPLETIONS); do $(INSTALL) -D -m 644 /dev/null '$(DESTDIR)$(PREFIX)'/share/$$it && python3 -B bindings/python/bin/pidtabctl completion $${it%%[-/]*} > '$(DESTDIR)$(PREFIX)'/share/$$it || exit 1; done
	$(INSTALL) -m 644 $(filter-out man/pidtab-box.1,$(wildcard man/*.1)) '$(DESTDIR)$(MANDIR)/man1'
	$(INSTALL) -m 644 man/*.5 '$(DESTDIR)$(MANDIR)/man5'

install-library: ## installs the library alone, with its headers and its manual pages
	@test -n '$(BUILT_LIBRARY)' || { echo 'no library out/libpidtab.so.1: build it with `make lib`' >&2; exit 1; }
	@test -n '$(UNPROVED)' || ! grep -qs '^not proved' out/library.txt || { echo 'the library in out/ is not proved: build it with `make lib`, or install it with UNPROVED=1' >&2; exit 1; }
	$(INSTALL) -d '$(DESTDIR)$(LIBDIR)/pkgconfig' '$(DESTDIR)$(INCLUDEDIR)' '$(DESTDIR)$(MANDIR)/man3'
	$(INSTALL) -m 644 out/libpidtab.a out/libpidtab.so.1 '$(DESTDIR)$(LIBDIR)'
	ln -sf libpidtab.so.1 '$(DESTDIR)$(LIBDIR)/libpidtab.so'
	$(INSTALL) -m 644 $(HEADERS:%=out/%) '$(DESTDIR)$(INCLUDEDIR)'
	$(describe) > '$(DESTDIR)$(LIBDIR)/pkgconfig/pidtab.pc'
	$(INSTALL) -m 644 man/*.3 '$(DESTDIR)$(MANDIR)/man3'
	for page in man/*.3; do for it in $$($(NAMED) $$page); do \
		echo ".so man3/$${page#man/}" > '$(DESTDIR)$(MANDIR)/man3/'$$it.3 || exit 1; done; done

uninstall: ## removes what these have installed, with the same variables
	rm -f '$(DESTDIR)$(PREFIX)/sbin/pidtabd' '$(DESTDIR)$(UNITS)/pidtabd.socket' '$(DESTDIR)$(UNITS)/pidtabd.service' $(call MANUALS,8)
	rm -f '$(BINARIES)/pidtab' $(PROGRAMS:%='$(BINARIES)/%')
	rm -f '$(DESTDIR)$(LIBDIR)/libpidtab.a' '$(DESTDIR)$(LIBDIR)/libpidtab.so' '$(DESTDIR)$(LIBDIR)/libpidtab.so.1'
	rm -f '$(DESTDIR)$(LIBDIR)/pkgconfig/pidtab.pc' $(HEADERS:%='$(DESTDIR)$(INCLUDEDIR)/%')
	rm -f $(call MANUALS,1) $(call MANUALS,3) $(call MANUALS,5) $(foreach it,$(FUNCTIONS),'$(DESTDIR)$(MANDIR)/man3/$(it).3')
	rm -rf '$(DESTDIR)$(PYTHONDIR)/pidtab' '$(SHARED_FILES)' $(COMPLETIONS:%='$(DESTDIR)$(PREFIX)/share/%')

.PHONY: machines machines-test

# What the checker proves for each target, which other machines are compiled of. What the tools say is in out/machines.log.
TARGETS = x86_64-unknown-linux-gnu aarch64-unknown-linux-gnu
machines: js ## * proves and builds for aarch64, riscv64, and any Linux by musl, into out/machines (15 minutes); what has no compiler here is skipped
	@mkdir -p out/machines
	@{ for target in $(TARGETS); do for crate in pidtab pidtab_c host_calls log_turns; do tools/module $$target $$crate || exit 1; done; done && \
		for it in $$(packaging/machine names); do \
			tools/report out/machines/$$it.txt $(foreach file,pidtab libpidtab.a libpidtab.so.1,out/machines/$$it/$(file)) -- packaging/machine build $$it || exit 1; done && \
		packaging/machine source && \
		tools/report out/machines/source.txt out/machines/source/pidtab.[Sc] out/machines/source/host_calls.S out/machines/source/log_turns.S -- \
			grep '^logic=' $(foreach it,pidtab_c host_calls log_turns,$(TARGETS:%=out/module/%/$(it).verdict)); } > out/machines.log 2>&1 \
		|| { echo 'make machines failed: see out/machines.log' >&2; exit 1; }
	@packaging/machine names > /dev/null

# By emulators. A machine that is not built is skipped.
machines-test: built ## tests what `make machines` has built, by qemu where that is another machine (some 15 minutes)
	@for it in $$(packaging/machine names 2> /dev/null); do \
		if test -d out/machines/$$it; then PIDTAB='$(abspath $(PIDTAB))' packaging/machine test $$it || exit 1; else echo "$$it is skipped: it is not built"; fi; done
	@if test -e out/machines/source/pidtab.c; then PIDTAB='$(abspath $(PIDTAB))' packaging/machine test source; else echo 'pidtab.c is skipped: it is not built'; fi

.PHONY: dist dist-test

# FORCE=1 makes a release of what is not proved, which says so.
DIST = --program '$(PIDTAB)' $(if $(FORCE),--force)
dist: ## makes a release in out/dist of what `make test` and `make lib` have proved; with FORCE=1 of what is not proved, which it says
	@packaging/dist $(DIST)

dist-test: ## installs each part of out/dist without a network, uses it, and makes the release again (some 2 minutes); what is missing is skipped
	@packaging/dist-test $(DIST)

.PHONY: lib try-lib

# The library is made of two archives that the checker proves and builds; its parts are in bindings/c. What the tools say is in out/lib.log, out/calls.log,
# out/turns.log and out/link.log.
LIBRARY = crates/pidtab_c/out/libpidtab_c.a
# The machine for the calls of a host, beside it. It needs nothing else.
HOST_CALLS = $(subst pidtab_c,host_calls,$(LIBRARY))
OBJCOPY ?= objcopy
TESTED = -std=c11 -D_GNU_SOURCE -O1 -g -Wall -Wextra -Werror -pthread
CHECKED = $(TESTED) -fsanitize=address,undefined -fno-sanitize-recover=all
THREADED = $(TESTED) -fsanitize=thread

lib: ## * proves and builds the library for C, with its header, in out/ (some 40 minutes from nothing, 18 behind `make build`)
	$(need_rt)
	@mkdir -p out
	@if grep -qs '^not proved' out/library.txt; then rm -f out/library.txt out/libpidtab.* out/liblog_turns.a; fi
	@tools/prove pidtab_c out/lib.log rt lib || { echo 'make lib failed: see out/lib.log' >&2; exit 1; }
	@tools/prove host_calls out/calls.log rt lib || { echo 'make lib failed: see out/calls.log' >&2; exit 1; }
	@tools/prove log_turns out/turns.log rt lib || { echo 'make lib failed: see out/turns.log' >&2; exit 1; }
	@$(MAKE) -s out/liblog_turns.a out/libpidtab.a out/libpidtab.so.1 > out/link.log 2>&1 || { echo 'make lib failed: see out/link.log' >&2; exit 1; }
	$(put_beside)
	@tools/report out/library.txt out/libpidtab.a out/libpidtab.so.1 out/liblog_turns.a

# What is beside the library in out/.
define put_beside
@rm -f out/libpidtab.so && cp out/libpidtab.so.1 out/libpidtab.so
@cp $(HEADERS:%=bindings/c/%) out
@$(describe) > out/pidtab.pc
endef

# Its parts are in a folder of their own, so that `make lib` takes none of them. What the tools say is in out/try-lib.log.
UNPROVED_OUT = out/unproved
try-lib: ## * compiles the library for C without proofs, in out/: do not rely on it (some 4 minutes)
	$(need_rt)
	@echo 'this library is not proved, `make lib` proves it: compiling takes some four minutes' >&2
	@rm -rf out/library.txt out/libpidtab.* out/liblog_turns.a && mkdir -p $(UNPROVED_OUT)
	@{ for it in log_turns host_calls pidtab_c; do tools/unproved $$it $(UNPROVED_OUT)/lib$$it.a || exit 1; done && \
		$(MAKE) -s OUT=$(UNPROVED_OUT) LIBRARY=$(UNPROVED_OUT)/libpidtab_c.a $(UNPROVED_OUT)/libpidtab.a $(UNPROVED_OUT)/libpidtab.so.1; } > out/try-lib.log 2>&1 \
		|| { echo 'make try-lib failed: see out/try-lib.log' >&2; exit 1; }
	@cp $(UNPROVED_OUT)/liblog_turns.a $(UNPROVED_OUT)/libpidtab.a $(UNPROVED_OUT)/libpidtab.so.1 out
	$(put_beside)
	@echo 'not proved: `make try-lib` has compiled it' > out/library.txt
	@echo out/libpidtab.a

# The machine that the service's log is driven by, as it is proved. It needs nothing else.
out/liblog_turns.a: crates/log_turns/out/liblog_turns.a
	cp $< $@

# The proved functions by other names, under which the C around them calls them.
$(OUT)/proved.a: $(LIBRARY) bindings/c/renamed.syms
	$(OBJCOPY) --redefine-syms=bindings/c/renamed.syms $(LIBRARY) $@

$(OUT)/host_calls.o: $(HOST_CALLS)
	$(LD) -r -o $@ --whole-archive $< --no-whole-archive
	$(OBJCOPY) -w --keep-global-symbol='host_calls_*' $@

# One object, of whose symbols only pidtab_.. and host_calls_.. are seen.
INTERNAL = proved.h guard.h threads.h
AROUND = heap guard guard_replica settings follow threads saved_file
$(OUT)/pidtab.o: $(OUT)/proved.a $(OUT)/host_calls.o $(AROUND:%=bindings/c/%.c) $(INTERNAL:%=bindings/c/%) $(HEADERS:%=bindings/c/%)
	for it in $(AROUND); do $(CC) -std=c11 -O2 -Wall -Wextra -Werror -fPIC -pthread -c -o $(OUT)/$$it.o bindings/c/$$it.c || exit 1; done
	$(LD) -r -o $@ --whole-archive $(OUT)/proved.a --no-whole-archive $(OUT)/host_calls.o $(AROUND:%=$(OUT)/%.o)
	$(OBJCOPY) -w --keep-global-symbol='pidtab_*' --keep-global-symbol='host_calls_*' $@

$(OUT)/libpidtab.a: $(OUT)/pidtab.o
	rm -f $@
	$(AR) rcs $@ $(OUT)/pidtab.o

$(OUT)/libpidtab.so.1: $(OUT)/pidtab.o bindings/c/pidtab.map
	$(CC) -shared -pthread -Wl,-soname,libpidtab.so.1 -Wl,--version-script=bindings/c/pidtab.map -Wl,-z,noexecstack -o $@ $(OUT)/pidtab.o

.PHONY: box box-test box-bench

# A test rig that runs real programs on a table. What the compiler says is in out/box.log.
BOX_WANTS = linux/seccomp.h linux/filter.h linux/audit.h sys/ptrace.h
box: ## builds out/pidtab-box, which runs a program on a table, over what `make lib` has built; Linux on x86-64 (or aarch64, not tried)
	@test -e out/libpidtab.a || { echo 'no library out/libpidtab.a: build it with `make lib`' >&2; exit 1; }
	@command -v '$(firstword $(CC))' > /dev/null || { echo 'no C compiler $(firstword $(CC)): install one, or name it by CC=..' >&2; exit 1; }
	@for it in $(BOX_WANTS); do echo "#include <$$it>" | $(CC) -E - > /dev/null 2>&1 \
		|| { echo "no header $$it: install those of the C library and of Linux (Debian: libc6-dev)" >&2; exit 1; }; done
	@$(CC) -std=c11 -O2 -g -Wall -Wextra -Werror -Ibindings/c -o out/pidtab-box box/src/*.c out/libpidtab.a -pthread > out/box.log 2>&1 \
		|| { echo 'make box failed: see out/box.log' >&2; exit 1; }
	@out/pidtab-box true || { echo 'out/pidtab-box is built, and this machine does not let it run' >&2; exit 1; }
	@echo out/pidtab-box

# As nobody, where root runs it. What is missing is told, and skipped.
box-test: box ## runs real programs in the box and in the kernel's namespaces, and compares (some 15 minutes); BOX_TEST='PART ..' takes some parts
	@PIDTAB='$(abspath $(PIDTAB))' box/tests/run $(BOX_TEST)

box-bench: box ## times builds and single calls natively, in the box, under strace and under proot (a minute)
	@box/tests/bench

.PHONY: bindings bindings-python bindings-c bindings-rust bindings-go bindings-go-cluster bindings-go-cluster-wrong bindings-js package repository

# Over what `make build` and `make lib` have built.
bindings: bindings-python bindings-c bindings-rust bindings-go bindings-js ## tests the ways in for Python, C, Rust, Go and JavaScript; what is not there is skipped with a word

# A command's tests, if the command and the file that they need are there. What they say is in a log, which is named where they fail.
define tested
@mkdir -p $(OUT)
@if ! command -v '$(1)' > /dev/null; then echo '$@: skipped: no $(1)'; \
elif ! test -e '$(2)'; then echo '$@: skipped: no $(2)'; \
elif ! { $(3); } > $(OUT)/$@.log 2>&1; then echo 'make $@ failed: see $(OUT)/$@.log' >&2; exit 1; fi
endef

# By the program and by the library; the tests of one that is not there are skipped.
SHARED = out/libpidtab.so
bindings-python:
	@test -x '$(PIDTAB)' || echo '$@: the program is skipped: no $(PIDTAB)'
	@test -e '$(SHARED)' || echo '$@: the library is skipped: no $(SHARED)'
	$(call tested,python3,bindings/python/tests,PIDTAB='$(PIDTAB)' PIDTAB_LIBRARY='$(SHARED)' \
		python3 -B -m unittest discover -v -s bindings/python/tests -t bindings/python)

# With helpers of the package's tests, and by the program and the library as these.
repository: ## tests the pages with their examples, the tools, the Makefile and `make install` (some 3 minutes); what is not there is skipped
	$(call tested,python3,tests,PIDTAB='$(PIDTAB)' PIDTAB_LIBRARY='$(SHARED)' PYTHONPATH=bindings/python \
		python3 -B -m unittest discover -v -s tests -t tests)

# From C, under the sanitizers for addresses and undefined behaviour, and under that for threads. A test is its file, the C around the proved functions, and
# what else it is built of: $(call c_test,FLAGS,NAME,FILES,ARGUMENTS). What allocates is built by itself where a test refuses memory, or has its use wait.
HELD = -Dmalloc=test_malloc -Drealloc=test_realloc
DEVICES = -Dread=test_read -Dwrite=test_write
GUARDED = guard guard_replica settings follow
HEAP = heap threads
in_c = $(1:%=bindings/c/%.c)
held_heap = for it in $(HEAP); do $(CC) $(1) $(HELD) $(3) -c -o $(OUT)/$(2)_$$it.o bindings/c/$$it.c || exit 1; done
of_held = $(HEAP:%=$(OUT)/$(1)_%.o)
c_test = $(CC) $(1) -o $(OUT)/$(2) bindings/c/$(2).c $(call in_c,$(GUARDED)) $(3) $(OUT)/proved.a && $(RUN) $(OUT)/$(2) $(4)
# What is the same for each machine.
SAME_EVERYWHERE = bindings/c/test_names && tools/guard --check && bindings/c/test_guard
bindings-c:
	$(call tested,$(firstword $(CC)),$(LIBRARY),\
		$(SAME_EVERYWHERE) && $(MAKE) -s $(OUT)/proved.a && \
		$(call held_heap,$(CHECKED),refusing) && \
		for it in test test_history test_replica test_dump test_dump_history; do \
			$(call c_test,$(CHECKED),$$it,$(call of_held,refusing)) || exit 1; done && \
		for it in test_numbers test_dump_seeds test_effects_seeds test_saved; do \
			$(call c_test,$(CHECKED),$$it,$(call in_c,$(HEAP))) || exit 1; done && \
		$(call c_test,$(TESTED),test_fields,$(call in_c,$(HEAP))) && \
		$(CC) $(CHECKED) -o $(OUT)/test_host_calls bindings/c/test_host_calls.c $(HOST_CALLS) && $(RUN) $(OUT)/test_host_calls && \
		$(call c_test,$(CHECKED),test_cases,$(call in_c,$(HEAP)),interface/cases/*.cases) && \
		$(call held_heap,$(THREADED),waiting,-Dfree=test_free) && \
		$(call c_test,$(THREADED),test_threads,$(call of_held,waiting)) && \
		for sanitizer in '$(TESTED)' '$(THREADED)'; do \
			$(call held_heap,$$sanitizer,readers,-Dfree=test_free) && \
			$(call c_test,$$sanitizer,test_readers,$(call of_held,readers)) || exit 1; done && \
		for sanitizer in '$(CHECKED)' '$(THREADED)'; do \
			$(call held_heap,$$sanitizer,calls) && \
			for it in test_calls test_page test_space test_control test_effects test_would; do \
				$(call c_test,$$sanitizer,$$it,$(call of_held,calls)) || exit 1; done && \
			$(call c_test,$$sanitizer,test_settings,$(call in_c,saved_file) $(call of_held,calls)) && \
			for it in test_workers test_follow; do \
				$(call c_test,$$sanitizer,$$it,$(call in_c,$(HEAP))) || exit 1; done && \
			for it in test_watch test_saved_threads test_saver; do \
				$(call c_test,$$sanitizer,$$it,$(call in_c,saved_file $(HEAP))) || exit 1; done || exit 1; done && \
		$(CC) $(CHECKED) $(DEVICES) -c -o $(OUT)/test_devices.o bindings/c/saved_file.c && \
		$(call c_test,$(CHECKED),test_saved_file,$(OUT)/test_devices.o $(call of_held,refusing)))

bindings-rust:
	$(call tested,cargo,out/libpidtab.a,cd bindings/rust && cargo test --offline --quiet)

# Go does not see that a header or an archive outside of its package has changed: so the headers' sum is a flag, and no result is kept.
bindings-go:
	$(call tested,go,out/libpidtab.a,export CGO_CFLAGS="-DHEADER_$$(cat $(HEADERS:%=out/%) | cksum | cut -d ' ' -f 1)" && \
		cd bindings/go && go vet ./... && { ! gofmt -l . | grep .; } && go test -count=1 ./...)

# One table on many hosts in Go, alone and beside hosts in Python, over Debian's sources of etcd's client (some 5 minutes). What it lacks it says.
define cluster_checked
@mkdir -p $(OUT)
@if ! command -v python3 > /dev/null; then echo '$@: skipped: no python3'; \
elif ! bindings/go/cluster/check missing > $(OUT)/$@.log; then echo "$@: skipped: $$(cat $(OUT)/$@.log)"; \
elif ! bindings/go/cluster/check $(1) > $(OUT)/$@.log 2>&1; then echo 'make $@ failed: see $(OUT)/$@.log' >&2; exit 1; fi
endef

bindings-go-cluster:
	$(call cluster_checked)

# Each wrong version of bindings/go/cluster/wrong is to be found (some 5 minutes).
bindings-go-cluster-wrong:
	$(call cluster_checked,wrong)

# The package of the sources as they are, beside its built module.
PACKED = package.json README.md pidtab.js pidtab.d.ts src examples
package:
	@rm -rf $(PACKAGE)/src $(PACKAGE)/examples && mkdir -p $(PACKAGE)
	@cp -R $(PACKED:%=bindings/js/%) LICENSE $(PACKAGE)

bindings-js: package
	$(call tested,node,$(PACKAGE)/pidtab.wasm,node --test --test-reporter=tap bindings/js/tests/*.test.js)

.PHONY: replicated

# By a log in memory that has troubles, by three members of etcd on the loopback, of which some are killed, and by a server of PostgreSQL likewise.
replicated: ## * tests one table on many hosts (some 10 minutes); where there is no library, it first does `make lib`
	@test -e '$(SHARED)' || $(MAKE) -s lib
	@command -v etcd > /dev/null || echo '$@: etcd is skipped: no etcd on PATH (Debian: etcd-server)'
	$(call tested,python3,bindings/python/cluster,PIDTAB='$(PIDTAB)' PIDTAB_LIBRARY='$(SHARED)' \
		python3 -B -m unittest discover -v -s bindings/python/cluster -t bindings/python)

.PHONY: chaos chaos-switch chaos-wrong

# In namespaces of its own, with a switch in user space between them. What it lacks it says. The tests are those of its parts and of its judge.
CHAOS_SECONDS = 180
CHAOS_SEED = 1
CHAOS = cd bindings/python && PIDTAB='$(abspath $(PIDTAB))' PIDTAB_LIBRARY='$(abspath $(SHARED))' python3 -B
chaos: built chaos-switch ## as root: one table on many hosts under cut networks, kills, losses of power, clocks that jump, an etcd that goes back in time (6 minutes); CHAOS_SECONDS=N, CHAOS_SEED=N
	@{ $(CHAOS) -m unittest discover -v -s chaos -t .; } > out/chaos-test.log 2>&1 || { echo 'make chaos failed: see out/chaos-test.log' >&2; exit 1; }
	@$(CHAOS) -m chaos.run --switch '$(abspath $(OUT))/chaos-switch' --folder '$(abspath $(OUT))/chaos' --seconds '$(CHAOS_SECONDS)' --seed '$(CHAOS_SEED)' \
		|| { echo 'make chaos failed: where a verdict is above, the files of the run are in out/chaos' >&2; exit 1; }
	@for it in restored restored_ahead alone alone_ahead; do \
		( $(CHAOS) -m chaos.set_back --switch '$(abspath $(OUT))/chaos-switch' --folder '$(abspath $(OUT))/chaos' --way $$it --seed '$(CHAOS_SEED)' ) \
			|| { echo 'make chaos failed: where a verdict is above, the files of the run are in out/chaos' >&2; exit 1; }; \
	done

# Each is to be found.
chaos-wrong: built chaos-switch ## as root: has runs of chaos find 18 wrong versions of the package, and members that do not sync (some 30 minutes)
	@$(CHAOS) -m chaos.wrong '$(abspath $(OUT))/chaos-switch' $(CHAOS_WRONG)

chaos-switch:
	@test -e '$(SHARED)' || { echo 'no library $(SHARED): build it with `make lib`' >&2; exit 1; }
	@command -v '$(firstword $(CC))' > /dev/null || { echo 'no C compiler $(firstword $(CC)): install one, or name it by CC=..' >&2; exit 1; }
	@mkdir -p $(OUT)
	@$(CC) -std=gnu11 -O2 -Wall -Wextra -Werror -o $(OUT)/chaos-switch bindings/python/chaos/switch.c

.PHONY: service service-test install-service

# The daemon is in Rust. Its crates are those of Debian's packages, and nothing is fetched. What cargo says is in out/service.log.
SERVICE = service/target/release/pidtabd
CRATES_FROM = /usr/share/cargo/registry
CRATES = itoa lexopt listenfd mio nix sd-notify signal-hook
# No path of this machine is left in it.
service: ## builds pidtabd, one table for all processes of a host, over what `make lib` has built (a minute; needs cargo and Debian's crates)
	@command -v cargo > /dev/null || { echo 'no cargo: the service needs Rust 1.89 or later' >&2; exit 1; }
	@for it in $(CRATES); do ls -d $(CRATES_FROM)/$$it-[0-9]* > /dev/null 2>&1 \
		|| { echo "no crate $$it: on Debian, apt-get install librust-$$it-dev" >&2; exit 1; }; done
	@for it in libpidtab liblog_turns; do test -e out/$$it.a || { echo "no library out/$$it.a: build it with \`make lib\`" >&2; exit 1; }; done
	@mkdir -p out/service
	@cd service && RUSTFLAGS="$${RUSTFLAGS:-} --remap-path-prefix=$(CURDIR)=." cargo build --release --offline --quiet > ../out/service.log 2>&1 || { echo 'make service failed: see out/service.log' >&2; exit 1; }
	@tools/report out/service.txt $(SERVICE)
	@echo $(SERVICE)

# Its parts by cargo, and the daemon by Python. LONG=10 has ten times the sizes. What is not there is skipped.
service-test: service built ## tests pidtabd: kills, losses of power, damage, planted faults, clients of Redis (10 to 30 minutes)
	@$(CC) -std=c11 -O2 -Wall -Wextra -Werror -Ibindings/c -o out/service/check service/tests/check.c out/libpidtab.a
	@for it in power flaky leap; do $(CC) -std=gnu11 -O2 -Wall -Wextra -Werror -shared -fPIC -o out/service/$$it.so service/tests/$$it.c -ldl || exit 1; done
	@{ (cd service && cargo test --release --offline --quiet && cd log_turns && CARGO_TARGET_DIR=../target cargo test --release --offline --quiet) && \
		cd service/tests && \
		PIDTAB='$(abspath $(PIDTAB))' python3 -W ignore -B -m unittest discover -v -s . -t . && ./planted; } > out/service-test.log 2>&1 \
		|| { echo 'make service-test failed: see out/service-test.log' >&2; exit 1; }
	@grep -E '^Ran |skipped|: found' out/service-test.log

# For Debian's package, and for a host without it. It builds nothing.
UNITS = $(PREFIX)/lib/systemd/system
install-service: ## installs the built pidtabd with its units and its manual page below PREFIX (/usr/local)
	@test -x '$(SERVICE)' || { echo 'no program $(SERVICE): build it with `make service`' >&2; exit 1; }
	$(INSTALL) -d '$(DESTDIR)$(PREFIX)/sbin' '$(DESTDIR)$(UNITS)' '$(DESTDIR)$(MANDIR)/man8'
	$(INSTALL) -m 755 '$(SERVICE)' '$(DESTDIR)$(PREFIX)/sbin/pidtabd'
	$(INSTALL) -m 644 packaging/pidtabd/pidtabd.socket packaging/pidtabd/pidtabd.service '$(DESTDIR)$(UNITS)'
	sed -i 's|^ExecStart=/usr/sbin/|ExecStart=$(PREFIX)/sbin/|' '$(DESTDIR)$(UNITS)/pidtabd.service'
	$(INSTALL) -m 644 man/*.8 '$(DESTDIR)$(MANDIR)/man8'

.PHONY: js

# The proved table as WebAssembly, in a package, over the crates below the library for C. What the tools say is in out/js.log.
PACKAGE = out/js
js: lib ## * builds the package for JavaScript, out/js, and first what `make lib` does (3 minutes behind that)
	@{ tools/module x86_64-unknown-linux-gnu pidtab_c && bindings/js/wasm/build; } > out/js.log 2>&1 || { echo 'make js failed: see out/js.log' >&2; exit 1; }
	@$(MAKE) -s package
	@tools/report out/js.txt $(PACKAGE)/pidtab.wasm
	@echo $(PACKAGE)

.PHONY: page page-test

# The page in the browser, over the same module. What the tools say is in out/page.log.
page: js ## * builds the page in the browser, out/page/pidtab.html, and first what `make js` does
	@page/build > out/page.log 2>&1 || { echo 'make page failed: see out/page.log' >&2; exit 1; }
	@tools/report out/page.txt out/page/pidtab.html
	@echo out/page/pidtab.html

# Its script, the built module, and the page in a headless Chromium. What is missing is told, and skipped.
page-test: ## tests the page; what is not there is skipped with a word
	@command -v node > /dev/null || { echo 'skipped: no node'; exit 0; }; \
	mkdir -p out; node --test --test-reporter=tap page/tests/*.test.js > out/page-test.log 2>&1 \
		|| { echo 'make page-test failed: see out/page-test.log' >&2; exit 1; }; \
	sed -n 's/.*# SKIP \(.*\)/skipped: \1/p' out/page-test.log | sort -u; grep -E '^# (pass|skipped) ' out/page-test.log

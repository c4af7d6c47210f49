# The commands of README.md. `make help` lists those with a line of their own after ##.
.PHONY: help test run show desk program library host install uninstall bench cross clean

# The prover's runs share target/.
.NOTPARALLEL:

# What a command that failed has written is not taken for built.
.DELETE_ON_ERROR:

# The ticket that `make run` checks and `make show` explains. One that is not there is told before anything is proved or built.
TICKET ?= examples/example4.ticket
ifneq ($(filter run show,$(MAKECMDGOALS)),)
ifneq ($(shell test -f '$(TICKET)' && test -r '$(TICKET)' && echo there),there)
$(error there is no ticket to read at '$(TICKET)': give its path as TICKET=PATH)
endif
endif

# Everything that is generated stands below target/.
export CARGO_TARGET_DIR := $(CURDIR)/target/tests
export NULDWICH_LIB_DIR := $(CURDIR)/target/staticlib

# The version, as the header has it.
VERSION := $(shell sed -n 's/^\#define NULDWICH_VERSION_STRING "\(.*\)"/\1/p' include/nuldwich.h)
MAJOR := $(firstword $(subst ., ,$(VERSION)))

# The library, as an archive and as a shared library, and what it is proved and built from.
LIBRARY := target/staticlib/libnuldwich.a
SHARED := target/shared/libnuldwich.so.$(VERSION)
SOURCES := crates.txt $(shell find crates \( -name must-fail -o -name out \) -prune -o -type f -print)

# The names of checking and judging in document 01. To C they are weak symbols.
SHORT_NAMES := check judge

# The first target, so that `make` alone does nothing by surprise.
help: ## list the commands
	@awk -F ':.*## ' '/^[a-z]*:.*## / { printf "  make %-10s %s\n", $$1, $$2 }' Makefile

# The whole gate: every crate proved, the edits that must fail, the executed tests.
test: ## prove everything, try the edits that must fail, run the tests
	@tests/gate.sh

# Standard output has the program's lines alone; the prover's log goes to standard error.
run: program ## check a ticket with the proved program: make run TICKET=examples/example4.ticket
	@target/bin/verdict < '$(TICKET)'

# Says what is wrong at a record refused. Standard output has the account alone. A refusal, status 1, is no failure of this command.
show: desk ## explain a ticket record by record: make show TICKET=examples/example1.ticket, with JSON=1 for programs
	@$(DESK) show $(if $(JSON),--json) '$(TICKET)' || [ $$? -eq 1 ]

DESK := target/desk/nuldwich
desk: library ## build the desk, the program that people use: target/desk/nuldwich
	@CARGO_TARGET_DIR=$(CURDIR)/target/desk-build cargo build --quiet --release --offline --locked --manifest-path desk/Cargo.toml -p nuldwich
	@install -D target/desk-build/release/nuldwich $(DESK)

program: target/bin/verdict ## build the proved program: target/bin/verdict

# It is run once, on empty input, as it is built.
target/bin/verdict: $(SOURCES)
	@cd crates/verdict && rt run >&2 </dev/null
	@install -D crates/verdict/out/verdict $@

library: $(LIBRARY) $(SHARED) ## build the library for C, with include/nuldwich.h: target/staticlib/libnuldwich.a, target/shared/libnuldwich.so

$(LIBRARY): $(SOURCES) Makefile
	@cd crates/nuldwich_c && rt lib >&2
	@mkdir -p $(@D)
	@objcopy --remove-section=.llvm_addrsig $(foreach name,$(SHORT_NAMES),--weaken-symbol=$(name)) crates/nuldwich_c/out/libnuldwich_c.a $@

# Of the archive's code; it exports what the version script names.
$(SHARED): $(LIBRARY) include/nuldwich.map
	@mkdir -p $(@D)
	@gcc -shared -o $@ -Wl,-soname,libnuldwich.so.$(MAJOR) -Wl,--version-script=include/nuldwich.map -Wl,-z,defs,-z,now,-z,noexecstack \
	    -Wl,--whole-archive $(LIBRARY) -Wl,--no-whole-archive
	@ln -sf $(@F) $(@D)/libnuldwich.so.$(MAJOR)
	@ln -sf libnuldwich.so.$(MAJOR) $(@D)/libnuldwich.so

# target/host TICKET counts needs and checks, target/host TICKET ANSWER judges, target/host same QUESTION QUESTION compares
host: library ## build the example of a host program: target/host
	@gcc -std=c11 -Wall -Wextra -Werror -O2 -Iinclude examples/host.c $(LIBRARY) -o target/host

# DESTDIR stands before every path, for packagers. Where the folder is one of the system's, the loader is told of the shared library.
PREFIX ?= /usr/local
override PREFIX := $(abspath $(PREFIX))
INSTALLED := lib/libnuldwich.a lib/libnuldwich.so lib/libnuldwich.so.$(MAJOR) lib/libnuldwich.so.$(VERSION) include/nuldwich.h \
    bin/nuldwich-verdict bin/nuldwich lib/pkgconfig/nuldwich.pc
INSTALL_TO = $(DESTDIR)$(PREFIX)

install: library program desk ## install both libraries, header, program, desk and a file for pkg-config: make install PREFIX=/usr/local
	@install -d $(addprefix $(INSTALL_TO)/,$(sort $(dir $(INSTALLED))))
	@install -m 644 $(LIBRARY) $(INSTALL_TO)/lib/libnuldwich.a
	@install -m 755 $(SHARED) $(INSTALL_TO)/lib/libnuldwich.so.$(VERSION)
	@ln -sf libnuldwich.so.$(VERSION) $(INSTALL_TO)/lib/libnuldwich.so.$(MAJOR)
	@ln -sf libnuldwich.so.$(MAJOR) $(INSTALL_TO)/lib/libnuldwich.so
	@install -m 644 include/nuldwich.h $(INSTALL_TO)/include/nuldwich.h
	@install -m 755 target/bin/verdict $(INSTALL_TO)/bin/nuldwich-verdict
	@install -m 755 $(DESK) $(INSTALL_TO)/bin/nuldwich
	@sed 's|@PREFIX@|$(PREFIX)|; s|@VERSION@|$(VERSION)|' include/nuldwich.pc.in > $(INSTALL_TO)/lib/pkgconfig/nuldwich.pc
	@$(TELL_LOADER)
	@printf '%s\n' $(addprefix $(INSTALL_TO)/,$(INSTALLED))

uninstall: ## take away what make install has put below PREFIX
	@rm -f $(addprefix $(INSTALL_TO)/,$(INSTALLED))
	@$(TELL_LOADER)

# Where the loader looks into the folder of libraries, its list is made anew.
TELL_LOADER = if [ -z '$(DESTDIR)' ] && ldconfig -v -N -X 2>/dev/null | grep -q '^$(PREFIX)/lib:'; then ldconfig; fi

bench: library ## measure the time of a call, beside a plain implementation and the reference checker
	@cargo build --quiet --release --offline --locked --manifest-path tests/Cargo.toml -p bench --features library
	@target/tests/release/bench

cross: library ## compare verdicts with those of cvc5 and Z3, where one of them is installed
	@CARGO_TARGET_DIR=$(CURDIR)/target/desk-build cargo build --quiet --release --offline --locked --manifest-path desk/Cargo.toml -p desk_tests
	@target/desk-build/release/cross

clean: ## remove everything that was built or proved
	@rm -rf target crates/*/out

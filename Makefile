# `make` proves everything and builds what a user links or runs; `make test` is the gate; `make help` says what else there is.
.PHONY: all lib bench page counts convert demo sbox audit speed test install uninstall clean help

# the sheets that `make bench` and `make page`, `make counts` and `make convert` answer
SHEET = examples/p1.sheet
COUNTS = examples/p12.counts
OLD = examples/old/p1.sheet
# where things are installed; DESTDIR stands before it, for packages that are put together elsewhere
PREFIX = /usr/local
DESTDIR =

archive = target/staticlib/libcippazhey.a
programs = bench page counts to_six_columns to_four_columns
prefix = $(abspath $(PREFIX))
# what a program is where it is installed
command = $(DESTDIR)$(prefix)/bin/cippazhey-$(subst _,-,$(1))
installed = $(addprefix $(DESTDIR)$(prefix)/,lib/libcippazhey.a include/cippazhey.h lib/pkgconfig/cippazhey.pc) \
	$(foreach program,$(programs),$(call command,$(program)))
part_of_version = $(shell sed -n 's/^\#define CIPPAZHEY_VERSION_$(1) //p' include/cippazhey.h)
version = $(call part_of_version,MAJOR).$(call part_of_version,MINOR).$(call part_of_version,PATCH)
# what is shown of long work counts from here
export STARTED := $(shell date +%s)
# rt's own words are kept, and shown where it fails
rt_in = @mkdir -p target; .ci/progress target/$(1).log $(2) || { cat target/$(1).log; exit 1; }
# every program, those that only test included
crates_of_programs = $(patsubst crates/%/src/main.rt,%,$(sort $(wildcard crates/*/src/main.rt)))

# `rt all check` proves several crates at a time, `.ci/build` one
all: ## proves every crate, builds the archive for C and the programs, and runs the programs
	@.ci/tools rt
	$(call rt_in,check,rt all check)
	$(call rt_in,lib,.ci/build archive cippazhey)
	$(call rt_in,programs,.ci/build tried $(crates_of_programs))

lib: ## target/staticlib/libcippazhey.a, whose header is include/cippazhey.h
	@.ci/tools rt
	$(call rt_in,lib,.ci/build archive cippazhey)

# what a program prints of a sheet, both arguments
define print
	@.ci/tools rt
	@test -r $(2) || { echo 'there is no sheet $(2)'; exit 1; }
	$(call rt_in,$(1),.ci/build program $(1))
	@target/bin/$(1) < $(2)
endef

bench: ## the log of a case sheet (SHEET=..), printed by the proved program
	$(call print,bench,$(SHEET))

page: ## the page of a case sheet (SHEET=..) for the wall cabinet, printed by the proved program
	$(call print,page,$(SHEET))

counts: ## the counts of a probe sheet (COUNTS=..), printed by the proved program
	$(call print,counts,$(COUNTS))

convert: ## a case sheet of four columns (OLD=..) in six, printed by the proved program
	$(call print,to_six_columns,$(OLD))

demo: ## masked lookups, a whole frame and a choice of one half from C, on the proved archive
	@.ci/tools x86-64 rt cc
	@$(MAKE) --no-print-directory lib
	@cc -std=c99 -O2 -Wall -Wextra -Iinclude examples/lookup.c $(archive) -o target/demo
	@cc -std=c99 -O2 -Wall -Wextra -Iinclude examples/frame.c $(archive) -o target/demo_frame
	@cc -std=c99 -O2 -Wall -Wextra -Iinclude examples/select.c $(archive) -o target/demo_select
	@target/demo && target/demo_frame && target/demo_select

sbox: ## the S-box of FIPS 197, printed by the proved program
	$(call print,sbox_print,/dev/null)

# the frame with three times the gate's keys
audit: ## what the machine code does with the masks, an instruction at a time; x86-64 Linux only
	@.ci/tools x86-64 rt cc objcopy objdump python3
	@$(MAKE) --no-print-directory lib
	$(call rt_in,logged,.ci/build archive test_logged_export)
	@.ci/progress target/audit.log tests/audit/run 9 || { grep -v ': ok$$' target/audit.log; exit 1; }
	@cat target/audit/plain_2.log target/audit/plain_3.log target/audit/select.log target/audit/frame.log

speed: ## the tables of docs/PERFORMANCE.md
	@.ci/tools x86-64 rt cc nm objdump size python3 valgrind
	@tests/speed/run

test: ## the gate: everything proved from nothing (what a run here proved and nothing changed counts), every wrong edit, test and audit
	@.ci/run

# blanks would be taken for ends of names, and this folder has a header of its own
folder_is_fit = @case '$(DESTDIR)$(PREFIX)' in *[[:space:]]*) echo 'a folder with a blank in its name cannot be taken'; exit 1 ;; esac; \
	test '$(DESTDIR)$(prefix)' != '$(CURDIR)' || { echo 'PREFIX is this folder itself: take another'; exit 1; }

install: ## what `make` has built, into PREFIX (/usr/local), with DESTDIR before it
	@for file in $(archive) $(addprefix target/bin/,$(programs)); do test -f $$file || \
		{ echo 'there is nothing to install yet, or not all of it: run `make` first'; exit 1; }; done
	$(folder_is_fit)
	install -d $(dir $(installed))
	install -m 644 $(archive) $(word 1,$(installed))
	install -m 644 include/cippazhey.h $(word 2,$(installed))
	sed -e 's|@PREFIX@|$(prefix)|' -e 's|@VERSION@|$(version)|' include/cippazhey.pc.in > $(word 3,$(installed))
	chmod 644 $(word 3,$(installed))
	$(foreach program,$(programs),install -m 755 target/bin/$(program) $(call command,$(program)) &&) :

uninstall: ## removes what `make install` puts there; takes the same PREFIX and DESTDIR
	$(folder_is_fit)
	rm -f $(installed)

clean: ## removes target/ and out/ of each crate, all that was built and what is kept of proofs
	rm -rf target crates/*/out

help: ## this list
	@sed -n 's/^\([a-z]*\):.*## \(.*\)/make \1|\2/p' Makefile | while IFS='|' read -r name text; do printf '%-15s %s\n' "$$name" "$$text"; done

# The bench rig. All that links the proved library is x86-64, as the library is; on another processor it is
# cross-compiled and run under qemu.
UNDIVARRO_LIB ?= target/staticlib/libundivarro.a
CASES ?= 1000000
SEED ?=

RIG_FLAGS := -std=c11 -Wall -Wextra -Werror -O2 -Iinclude
QEMU := qemu-x86_64
ifeq ($(shell uname -m),x86_64)
X86_CC := gcc
RUN :=
else
X86_CC := x86_64-linux-gnu-gcc
RUN := $(QEMU)
endif

rig_out := target/rig
rig_programs := $(addprefix $(rig_out)/bin/,rig rig-stopped compare bench)
rig_files := $(wildcard rig/*.h) include/undivarro.h rig/rig.mk
rig_sources := $(addprefix rig/,rig.c serve.c serving.c device.c pseudo.c receiver.c burst_queue.c sender.c play.c scene.c \
    playing.c session.c hex.c options.c box.c new.c show.c diff.c back.c salvage.c setup.c setup_file.c beside.c hold.c \
    same_file.c read_up_to.c write_all.c log.c words.c value_text.c errors.c clock.c checksum.c status.c names.c edition.c tiling.c record.c told.c)
case_sources := $(addprefix rig/,cases.c case_images.c case_bursts.c case_lists.c case_data.c case_records.c case_fields.c \
    case_spoilings.c case_wrecks.c case_values.c case_tilings.c random.c checksum.c edition.c)
compare_sources := $(addprefix rig/,compare.c trial.c one_by_one.c tally.c meetings.c damages.c editions.c powers.c tilings.c \
    tiling_sets.c batches.c kinds.c salvages.c salvage_fields.c told.c walls.c names.c tiling.c record.c plain.c) $(case_sources)

# These install what is missing; the files below are built with what is there.
.PHONY: rig rig-test bench
# the program: target/rig/rig
rig:
	@rig/tools.sh
	@$(MAKE) --no-print-directory $(rig_out)/rig
# the rig's tests; SEED=... repeats a comparison, CASES=... sets its length
rig-test:
	@rig/tools.sh test
	@$(MAKE) --no-print-directory $(rig_out)/rig $(rig_programs) $(rig_out)/bin/sanitized
	RUN='$(RUN)' X86_CC='$(X86_CC)' CASES='$(CASES)' SEED='$(SEED)' rig/test.sh $(rig_out)
# guest instructions per call, proved and plain, as a table
bench:
	@rig/tools.sh bench
	@$(MAKE) --no-print-directory $(rig_out)/bin/bench $(rig_out)/libcount.so
	@$(QEMU) -plugin $(rig_out)/libcount.so $(rig_out)/bin/bench

# A file of its own makes the program run alike on every processor, also by a link.
$(rig_out)/rig: $(rig_out)/bin/rig
	printf '#!/bin/sh\nexec $(RUN) "$$(dirname "$$(readlink -f "$$0")")/bin/rig" "$$@"\n' >$@
	chmod +x $@

# The crate that exports it is undivarro_c, since a crate is a library or a static one; the archive has the library's name.
target/staticlib/libundivarro.a: crates.txt $(wildcard crates/*/src/*.rt crates/*/src/*/*.rt)
	tools/prove undivarro_c
	@mkdir -p $(@D)
	cp crates/undivarro_c/out/libundivarro_c.a $@

$(rig_out)/bin/rig: $(rig_sources)
$(rig_out)/bin/rig-stopped: $(rig_sources) rig/stops.c
$(rig_out)/bin/rig-stopped: RIG_LINK := -Wl,--wrap=read,--wrap=write,--wrap=fsync,--wrap=renameat,--wrap=renameat2,--wrap=flock,--wrap=pthread_create,--wrap=poll,--wrap=is_pseudo_terminal
$(rig_out)/bin/compare: $(compare_sources)
$(rig_out)/bin/bench: $(addprefix rig/,bench.c bench_images.c bench_bursts.c edition.c checksum.c plain.c)
$(rig_programs): $(UNDIVARRO_LIB) $(rig_files)
	@mkdir -p $(@D)
	$(X86_CC) $(RIG_FLAGS) -static $(filter %.c,$^) $(UNDIVARRO_LIB) $(RIG_LINK) -o $@

# The plain box alone, for the machine's own processor: the sanitizers do not run under qemu.
$(rig_out)/bin/sanitized: $(compare_sources) $(rig_files)
	@mkdir -p $(@D)
	gcc $(RIG_FLAGS) -g -fsanitize=address,undefined -fno-sanitize-recover=all -DPLAIN_ALONE $(filter %.c,$^) -o $@

# Before version 9 qemu had version 1 of its plugin interface.
$(rig_out)/libcount.so: rig/count.c $(rig_files)
	@mkdir -p $(@D)
	gcc $(RIG_FLAGS) -fPIC -shared -o $@ rig/count.c -DQEMU_PLUGIN_VERSION=$$($(QEMU) --version | \
	    awk 'NR == 1 { split($$3, v, "."); print v[1] < 9 ? 1 : 2 }')

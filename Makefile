# C programs on the static libraries. `rt` proves a library before it writes it.
#   make demo      forty simulated peers on one connection, in each mode (ARGS: --capture and a file; seed, MiB)
#   make files     a file by the sync messages to a simulated device and back, in each mode (ARGS: seed, bytes)
#   make console   a recorded console session, its output and errors apart, and its exit code (ARGS: bytes a piece; SESSION: a file)
#   make damage    the calls of both ends on broken states and short buffers; the sync messages, shell frames and captures on any
#                  bytes
#   make ends      both ends over a loopback socket: forty streams, in each mode (ARGS: seed, MiB)
#   make stretch   adb_stretch against a plain search, on logs made up (ARGS: seed, logs)
#   make captures  the programs frames_to_pcap and pcap_to_frames, on stored files
#   make replay    recorded calls, and the answers and states that libadb gave for them, on the library
#   make compare   the port against libadb: SEEDS names libadb's folder libadb/src (ARGS: first and last seed, calls)
#   make bench     the port's and libadb's time side by side: SEEDS as for compare (ARGS: repeats, ms each, rows)
#   make header    the five headers, each alone and with the others, as C99 and as C++
#   make example   the examples in the headers, compiled
#   make seam      what the tests run of these: header, example, replay, damage, stretch, a demonstration of 1 MiB with a capture, a
#                  file of 200,003 bytes, both ends with 1 MiB, the recorded session in pieces of several lengths, and captures
#   make peer      AOSP's adb opens forty streams to a device's end on the library (ADB: its command; ARGS: streams, bytes); needs
#                  adb and Python, and is no part of the tests
#   make device_peer  AOSP's adb with adb_device.h's end: streams, files and commands (as peer; ARGS: streams, bytes)
#   make clean     removes what these targets built, but not what is proved
# CC, CXX and CFLAGS may be set, as CFLAGS='-O1 -g -fsanitize=address,undefined'; LIB, DEVICE_LIB, SYNC_LIB,
# SHELL_LIB and PCAP_LIB name other static libraries.

CFLAGS ?= -O2
CXX ?= c++
WARNINGS = -Wall -Wextra -pedantic
OUT = target/c
LIB = target/staticlib/libadb.a
DEVICE_LIB = target/staticlib/libadb_device.a
SYNC_LIB = target/staticlib/libadb_sync.a
SHELL_LIB = target/staticlib/libadb_shell.a
PCAP_LIB = target/staticlib/libadb_pcap.a
CONVERTERS = target/bin/frames_to_pcap target/bin/pcap_to_frames
SESSION = vectors/shell/session.out

.PHONY: all demo files console damage ends stretch captures replay compare bench header example seam peer device_peer clean

all: header example replay demo files console damage ends stretch captures

demo: $(OUT)/demo
	$(OUT)/demo $(ARGS)

files: $(OUT)/files
	$(OUT)/files $(ARGS)

console: $(OUT)/console
	$(OUT)/console $(ARGS) < $(SESSION)

damage: $(OUT)/damage $(OUT)/damage_device $(OUT)/damage_sync $(OUT)/damage_shell $(OUT)/damage_pcap
	$(OUT)/damage $(ARGS)
	$(OUT)/damage_device $(ARGS)
	$(OUT)/damage_sync $(ARGS)
	$(OUT)/damage_shell $(ARGS)
	$(OUT)/damage_pcap $(ARGS)

ends: $(OUT)/ends
	$(OUT)/ends $(ARGS)

stretch: $(OUT)/stretch
	$(OUT)/stretch $(ARGS)

captures: $(CONVERTERS)
	tests/captures.sh $(ARGS)

replay: $(OUT)/driver
	@for calls in vectors/recorded/*.txt; do \
	    $(OUT)/driver < $$calls | cmp - $${calls%.txt}.expected && echo "replay: $$calls: $$(wc -l < $$calls) calls agree" || exit 1; \
	done

# compare.sh, stat2.sh and run.sh make the default library themselves.
OTHER_LIB = $(if $(filter-out target/staticlib/libadb.a,$(LIB)),$(abspath $(LIB)))
OTHER_SYNC_LIB = $(if $(filter-out target/staticlib/libadb_sync.a,$(SYNC_LIB)),$(abspath $(SYNC_LIB)))

compare:
	CC='$(CC)' LIB='$(OTHER_LIB)' oracle/compare.sh $(ARGS)
	CC='$(CC)' SYNC_LIB='$(OTHER_SYNC_LIB)' oracle/stat2.sh

bench:
	@LIB='$(OTHER_LIB)' bench/run.sh $(ARGS)

# Which headers, in which order.
INCLUDED = adb.h,adb.h adb_device.h,adb_device.h adb_sync.h,adb_sync.h adb_shell.h,adb_shell.h adb_pcap.h,adb_pcap.h \
    adb.h,adb_device.h,adb_sync.h,adb_shell.h,adb_pcap.h adb_pcap.h,adb_shell.h,adb_sync.h,adb_device.h,adb.h

header:
	@for two in $(INCLUDED); do \
	    text=$$(printf '#include <%s>\n' $$(echo $$two | tr , ' ')) && \
	    printf '%s\ntypedef int one;\n' "$$text" | $(CC) -std=c99 $(WARNINGS) -Werror -Iinclude -x c -fsyntax-only - && \
	    printf '%s\ntypedef int one;\n' "$$text" | $(CXX) $(WARNINGS) -Werror -Iinclude -x c++ -fsyntax-only - && \
	    echo "header: $$two" || exit 1; \
	done

# The lines of an example, without the comment's own.
EXAMPLE = sed -n '/^ \*     uint8_t in\[/,/^ \*     }$$/s/^ \*     /    /p'

example:
	@mkdir -p $(OUT)
	{ cat tests/example.head; $(EXAMPLE) include/adb.h; echo '}'; } > $(OUT)/example.c
	grep -q 'adb_read(' $(OUT)/example.c
	$(CC) -std=c99 $(WARNINGS) -Werror -Iinclude -c $(OUT)/example.c -o $(OUT)/example.o
	{ cat tests/example_device.head; $(EXAMPLE) include/adb_device.h; echo '}'; } > $(OUT)/example_device.c
	grep -q 'adb_device_dispatch(' $(OUT)/example_device.c
	$(CC) -std=c99 $(WARNINGS) -Werror -Iinclude -c $(OUT)/example_device.c -o $(OUT)/example_device.o
	{ cat tests/example_sync.head; $(EXAMPLE) include/adb_sync.h; echo '}'; } > $(OUT)/example_sync.c
	grep -q 'adb_sync_read(' $(OUT)/example_sync.c
	$(CC) -std=c99 $(WARNINGS) -Werror -Iinclude -c $(OUT)/example_sync.c -o $(OUT)/example_sync.o
	{ cat tests/example_shell.head; $(EXAMPLE) include/adb_shell.h; echo '}'; } > $(OUT)/example_shell.c
	grep -q 'adb_shell_read(' $(OUT)/example_shell.c
	$(CC) -std=c99 $(WARNINGS) -Werror -Iinclude -c $(OUT)/example_shell.c -o $(OUT)/example_shell.o
	{ cat tests/example_pcap.head; $(EXAMPLE) include/adb_pcap.h; echo '}'; } > $(OUT)/example_pcap.c
	grep -q 'adb_pcap_read_record(' $(OUT)/example_pcap.c
	$(CC) -std=c99 $(WARNINGS) -Werror -Iinclude -c $(OUT)/example_pcap.c -o $(OUT)/example_pcap.o

seam: header example replay $(OUT)/damage $(OUT)/damage_device $(OUT)/damage_sync $(OUT)/damage_shell $(OUT)/damage_pcap $(OUT)/ends \
    $(OUT)/stretch $(OUT)/demo $(OUT)/files $(OUT)/console $(CONVERTERS)
	$(OUT)/damage
	$(OUT)/damage_device
	$(OUT)/damage_sync
	$(OUT)/damage_shell
	$(OUT)/damage_pcap
	$(OUT)/ends 1 1
	$(OUT)/stretch
	$(OUT)/demo --capture $(OUT)/demo.pcap 1 1
	$(OUT)/files 1 200003
	tests/console.sh $(OUT)/console
	tests/captures.sh $(OUT)/demo.pcap

peer: $(OUT)/peer
	tests/peer.py $(OUT)/peer $(ARGS)

$(OUT)/peer: tests/peer.c tests/wire.h demo/queue.h demo/common.h demo/numbers.h include/adb.h $(LIB)
	@mkdir -p $(OUT)
	$(CC) -std=c99 $(WARNINGS) $(CFLAGS) -Iinclude tests/peer.c $(LIB) -o $@

device_peer: $(OUT)/device_peer
	tests/device_peer.py $(OUT)/device_peer $(ARGS)

$(OUT)/device_peer: tests/device_peer.c tests/wire.h demo/queue.h demo/common.h demo/numbers.h include/adb.h include/adb_device.h \
    include/adb_sync.h include/adb_shell.h $(DEVICE_LIB) $(SYNC_LIB) $(SHELL_LIB)
	@mkdir -p $(OUT)
	$(CC) -std=c99 $(WARNINGS) $(CFLAGS) -Iinclude tests/device_peer.c $(DEVICE_LIB) $(SYNC_LIB) $(SHELL_LIB) -o $@

$(OUT)/demo: demo/demo.c demo/common.h demo/numbers.h include/adb.h include/adb_pcap.h $(LIB) $(PCAP_LIB)
	@mkdir -p $(OUT)
	$(CC) -std=c99 $(WARNINGS) $(CFLAGS) -Iinclude demo/demo.c $(LIB) $(PCAP_LIB) -o $@

$(OUT)/files: demo/files.c demo/queue.h demo/common.h demo/numbers.h include/adb.h include/adb_sync.h $(LIB) $(SYNC_LIB)
	@mkdir -p $(OUT)
	$(CC) -std=c99 $(WARNINGS) $(CFLAGS) -Iinclude demo/files.c $(LIB) $(SYNC_LIB) -o $@

$(OUT)/driver: oracle/port/driver.c include/adb.h $(LIB)
	@mkdir -p $(OUT)
	$(CC) -std=c99 $(WARNINGS) $(CFLAGS) -Iinclude oracle/port/driver.c $(LIB) -o $@

$(OUT)/damage: tests/damage.c tests/lent.h demo/common.h demo/numbers.h include/adb.h $(LIB)
	@mkdir -p $(OUT)
	$(CC) -std=c99 $(WARNINGS) $(CFLAGS) -Iinclude tests/damage.c $(LIB) -o $@

# What a device's end does as the host's is foretold by the host's library.
$(OUT)/damage_device: tests/damage_device.c tests/lent.h demo/common.h demo/numbers.h include/adb.h include/adb_device.h $(LIB) $(DEVICE_LIB)
	@mkdir -p $(OUT)
	$(CC) -std=c99 $(WARNINGS) $(CFLAGS) -Iinclude tests/damage_device.c $(DEVICE_LIB) $(LIB) -o $@

$(OUT)/ends: tests/ends.c demo/queue.h demo/common.h demo/numbers.h include/adb.h include/adb_device.h $(LIB) $(DEVICE_LIB)
	@mkdir -p $(OUT)
	$(CC) -std=c99 $(WARNINGS) $(CFLAGS) -Iinclude tests/ends.c $(DEVICE_LIB) $(LIB) -o $@

$(OUT)/stretch: tests/stretch.c demo/common.h demo/numbers.h include/adb.h $(LIB)
	@mkdir -p $(OUT)
	$(CC) -std=c99 $(WARNINGS) $(CFLAGS) -Iinclude tests/stretch.c $(LIB) -o $@

$(OUT)/damage_sync: tests/damage_sync.c demo/numbers.h include/adb_sync.h $(SYNC_LIB)
	@mkdir -p $(OUT)
	$(CC) -std=c99 $(WARNINGS) $(CFLAGS) -Iinclude tests/damage_sync.c $(SYNC_LIB) -o $@

$(OUT)/damage_shell: tests/damage_shell.c demo/numbers.h include/adb_shell.h $(SHELL_LIB)
	@mkdir -p $(OUT)
	$(CC) -std=c99 $(WARNINGS) $(CFLAGS) -Iinclude tests/damage_shell.c $(SHELL_LIB) -o $@

$(OUT)/damage_pcap: tests/damage_pcap.c demo/numbers.h include/adb_pcap.h $(PCAP_LIB)
	@mkdir -p $(OUT)
	$(CC) -std=c99 $(WARNINGS) $(CFLAGS) -Iinclude tests/damage_pcap.c $(PCAP_LIB) -o $@

$(OUT)/console: demo/console.c include/adb_shell.h $(SHELL_LIB)
	@mkdir -p $(OUT)
	$(CC) -std=c99 $(WARNINGS) $(CFLAGS) -Iinclude demo/console.c $(SHELL_LIB) -o $@

# What a crate's file or program is made from; `out` is what rt makes.
SOURCES = crates.txt $(shell find crates -name out -prune -o \( -name '*.rt' -o -name '*.antt' \) -print)

# The programs that convert captures: proved, built and run on their own stored input.
$(CONVERTERS): $(SOURCES)
	@mkdir -p $(@D)
	cd crates/$(@F) && rt run < stdin | cmp - stdout
	cp crates/$(@F)/out/$(@F) $@

target/staticlib/lib%.a: $(SOURCES)
	@mkdir -p $(@D)
	cd crates/$* && rt lib
	cp crates/$*/out/$(@F) $@

clean:
	rm -rf $(OUT) target/oracle

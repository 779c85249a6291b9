# Builds the command pattern and the libraries, and installs them: make, make install PREFIX=/usr/local
PREFIX = /usr/local
DESTDIR =
CFLAGS = -O2 -Wall -Wextra -Wpedantic -Werror

VERSION := $(shell sed -n 's/.define PATTERN_VERSION  *"\(.*\)"/\1/p' include/pattern_text.h)
MAJOR := $(firstword $(subst ., ,$(VERSION)))

PROVED = target/staticlib/libpattern_c.a
OUT = target/install
STATIC = $(OUT)/libpattern.a
SHARED = $(OUT)/libpattern.so.$(VERSION)
COMMAND = target/cargo/release/pattern
HEADERS = include/pattern.h include/pattern_text.h
RULES = rust/pattern/src/rules.h
TO = $(DESTDIR)$(PREFIX)

HOST := $(shell uname -m)-linux
KIT := $(shell command -v rt)

all: $(STATIC) $(SHARED) command

NO_KIT = the Rattle kit is missing (no command rt), and no proved objects for $(HOST) are here; \
	the source archive pattern-$(VERSION)-source.tar.gz has some

NO_COMPILER = a C compiler is missing (no command $(firstword $(CC)))

# What is needed is looked for before minutes of proving.
need:
	@rust/cargo --version >/dev/null
	@command -v $(firstword $(CC)) >/dev/null || { echo "make: $(NO_COMPILER)" >&2; exit 1; }
	@[ -n "$(KIT)" ] || [ -f objects/$(HOST)/libpattern_c.a ] || { echo "make: $(NO_KIT)" >&2; exit 1; }

# The proved library: proved and compiled by the kit where a crate changed; without the kit the proved objects of the source archive.
proved: $(PROVED)

ifneq ($(KIT),)
$(PROVED): crates.txt $(shell find crates -name must-fail -prune -o -name out -prune -o -print) | need
	cd crates/pattern_exports && rt lib
	install -D -m 644 crates/pattern_exports/out/libpattern_exports.a $@
else
$(PROVED): $(wildcard objects/$(HOST)/libpattern_c.a objects/SHA256SUMS) | need
	@cd objects && sha256sum --check --quiet SHA256SUMS
	@install -D -m 644 objects/$(HOST)/libpattern_c.a $@
	@echo "The Rattle kit is not here: the library is the proved one of the archive, for $(HOST), which was made from" && cat objects/ORIGIN
endif

$(OUT)/pattern_text.o: c/pattern_text.c $(RULES) $(HEADERS)
	@mkdir -p $(OUT)
	$(CC) -std=c11 $(CFLAGS) -fPIC -Iinclude -c $< -o $@

$(STATIC): $(PROVED) $(OUT)/pattern_text.o
	cp $(PROVED) $@.new
	$(AR) r $@.new $(OUT)/pattern_text.o
	mv $@.new $@

$(SHARED): $(STATIC) c/exports.map
	$(CC) -shared -Wl,-soname,libpattern.so.$(MAJOR) -Wl,--version-script,c/exports.map -Wl,-z,defs \
		-Wl,--whole-archive $(STATIC) -Wl,--no-whole-archive -o $@

command: $(PROVED)
	cd rust && ./cargo build --release --quiet

# The first verdict.
try: all
	$(COMMAND) check examples/text/gable.txt

# The library for Arm, Windows and WebAssembly, in target/targets; targets/README.md says more.
targets: $(PROVED)
	targets/build

# The sketch page, one file: target/page/pattern.html.
page: $(PROVED)
	page/build

# The packages of a release, in target/dist, over what `make targets` built; packages/README.md says more.
dist: all
	packages/build

install: all
	install -d $(TO)/bin $(TO)/include $(TO)/lib/pkgconfig $(TO)/share/man/man1
	install -d $(TO)/share/bash-completion/completions $(TO)/share/zsh/site-functions $(TO)/share/fish/vendor_completions.d
	install -m 755 $(COMMAND) $(TO)/bin/pattern
	install -m 644 $(HEADERS) $(TO)/include
	install -m 644 $(STATIC) $(TO)/lib/libpattern.a
	install -m 755 $(SHARED) $(TO)/lib
	ln -sf libpattern.so.$(VERSION) $(TO)/lib/libpattern.so.$(MAJOR)
	ln -sf libpattern.so.$(MAJOR) $(TO)/lib/libpattern.so
	sed 's|@PREFIX@|$(PREFIX)|; s|@VERSION@|$(VERSION)|' c/pattern.pc.in >$(TO)/lib/pkgconfig/pattern.pc
	sed 's|@VERSION@|$(VERSION)|' man/pattern.1 >$(TO)/share/man/man1/pattern.1
	$(COMMAND) completion bash >$(TO)/share/bash-completion/completions/pattern
	$(COMMAND) completion zsh >$(TO)/share/zsh/site-functions/_pattern
	$(COMMAND) completion fish >$(TO)/share/fish/vendor_completions.d/pattern.fish
	install -d $(TO)/share/pattern/rust/src
	install -m 644 python/pattern.py docs/pattern.schema.json $(TO)/share/pattern
	install -m 644 rust/pattern/build.rs $(TO)/share/pattern/rust
	install -m 644 rust/pattern/src/*.rs $(RULES) $(TO)/share/pattern/rust/src
	sed '/^# the version/d; s|^version = .*|version = "$(VERSION)"|' rust/pattern/Cargo.toml >$(TO)/share/pattern/rust/Cargo.toml

uninstall:
	rm -f $(TO)/bin/pattern $(HEADERS:include/%=$(TO)/include/%) $(TO)/lib/libpattern.a $(TO)/lib/libpattern.so*
	rm -f $(TO)/lib/pkgconfig/pattern.pc $(TO)/share/man/man1/pattern.1 $(TO)/share/bash-completion/completions/pattern
	rm -f $(TO)/share/zsh/site-functions/_pattern $(TO)/share/fish/vendor_completions.d/pattern.fish
	rm -rf $(TO)/share/pattern

# The book: a site of static pages, from each promise to its proof; target/book/index.html.
book:
	python3 -B book/book.py

clean:
	rm -rf $(OUT)

.PHONY: all need proved command try targets page dist book install uninstall clean

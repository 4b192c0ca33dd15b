PREFIX ?= /usr/local
DESTDIR ?=

LIBRARY := crates/wallmirror/out
ARCHIVE := $(LIBRARY)/libwallmirror.a
HEADER := include/wallmirror.h
VERSION := $(shell sed -n 's/^\#define WALLMIRROR_VERSION "\(.*\)"$$/\1/p' $(HEADER))
CARGO := WALLMIRROR_LIB_DIR="$(CURDIR)/$(LIBRARY)" CARGO_TARGET_DIR="$(CURDIR)/target/cargo" cargo
INSTALLED = $(DESTDIR)$(PREFIX)

.PHONY: all tool test bench pictures install install-library clean

# Proves the library and writes the archive; what has not changed is not proved again.
all:
	cd crates/wallmirror && rt lib

# The command for setters, target/wallmirror.
tool: all
	cd rust && $(CARGO) build --release --offline --locked --quiet -p tool
	cp target/cargo/release/wallmirror target/wallmirror

# Everything: proofs, must-fail edits, programs, C and Rust.
test:
	.ci/run

# The library beside a tuned C version and the model, on the largest meshes, and which goals are missed.
bench: all
	cd rust && $(CARGO) run --release --offline --locked --quiet -p bench

# The pictures in docs/, drawn anew.
pictures: tool
	PATH="$(CURDIR)/target:$$PATH" docs/walls.sh docs
	docs/crates.sh > docs/crates.svg
	docs/levels.sh > docs/levels.svg
	docs/heights.sh > docs/heights.svg
	docs/corner.sh > docs/corner.svg
	docs/projector.sh > docs/projector.svg
	docs/nudge.sh > docs/nudge.svg
	docs/shape.sh > docs/shape.svg

# Header, archive and pkg-config file.
install-library: all
	install -d "$(INSTALLED)/include" "$(INSTALLED)/lib/pkgconfig"
	install -m 644 $(HEADER) "$(INSTALLED)/include/"
	install -m 644 $(ARCHIVE) "$(INSTALLED)/lib/"
	mkdir -p target
	sed 's|@PREFIX@|$(subst &,\&,$(PREFIX))|; s|@VERSION@|$(VERSION)|' include/wallmirror.pc.in > target/wallmirror.pc
	install -m 644 target/wallmirror.pc "$(INSTALLED)/lib/pkgconfig/"

# The library, and the command with its completion for bash.
install: install-library tool
	install -d "$(INSTALLED)/bin" "$(INSTALLED)/share/bash-completion/completions"
	install target/wallmirror "$(INSTALLED)/bin/"
	install -m 644 rust/tool/wallmirror.bash "$(INSTALLED)/share/bash-completion/completions/wallmirror"

# What was built and what the proofs kept.
clean:
	rm -rf target crates/*/out

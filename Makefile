# bin/build proves and builds the program; this also tests it, installs it with its man page, completions and dictionaries, and
# makes packages of Debian, a tarball, and the workbench as a web page.
PREFIX = /usr/local
BUILD = bin/build --release
PROGRAM = crates/diacmd/out/diacmd-release
ROOT = $(DESTDIR)$(PREFIX)
SHARE = $(ROOT)/share
# the dictionaries of this folder have a Failed-AVP whose data isn't checked
OCTETS = failed-avp-octets
.PHONY: all check install uninstall deb dist web
all:
	$(BUILD)
check:
	.ci/test
install: all
	install -D -m 755 "$(PROGRAM)" "$(ROOT)/bin/diacmd"
	install -D -m 644 docs/diacmd.1 "$(SHARE)/man/man1/diacmd.1"
	install -D -m 644 completions/diacmd.bash "$(SHARE)/bash-completion/completions/diacmd"
	install -D -m 644 completions/_diacmd "$(SHARE)/zsh/site-functions/_diacmd"
	install -D -m 644 completions/diacmd.fish "$(SHARE)/fish/vendor_completions.d/diacmd.fish"
	install -D -m 644 -t "$(SHARE)/diacmd" $(filter-out %/differences.txt,$(wildcard dictionaries/*.txt))
	install -d -m 755 "$(SHARE)/diacmd/$(OCTETS)"
	while IFS=: read -r name parts; do \
	    (cd dictionaries && cat $$parts) > "$(SHARE)/diacmd/$$name" || exit; \
	    (cd dictionaries && cat rfc6733-$(OCTETS).txt $${parts# rfc6733.txt}) > "$(SHARE)/diacmd/$(OCTETS)/$$name" || exit; \
	done < dictionaries/together
	install -m 644 integrations/ci/diacmd.jq "$(SHARE)/diacmd"
	chmod 644 "$(SHARE)"/diacmd/*.* "$(SHARE)/diacmd/$(OCTETS)"/*
uninstall:
	cd "$(SHARE)" && rm -f man/man1/diacmd.1 bash-completion/completions/diacmd zsh/site-functions/_diacmd
	rm -f "$(ROOT)/bin/diacmd" "$(SHARE)/fish/vendor_completions.d/diacmd.fish" && rm -rf "$(SHARE)/diacmd"
deb:
	$(BUILD)
	bin/build dia_c
	integrations/deb/make-deb
dist: web
	$(BUILD)
	bin/build dia_c
	integrations/dist/make-dist
web:
	web/build
	web/bundle.py web/out/diacmd.wasm web/out/wittalen.html

# Installs xbrl-json and xbrl-filing from this folder, and the C library if dist/lib has it.
#
#     make install [PREFIX=/usr/local] [DESTDIR=FOLDER]
#     make uninstall [PREFIX=/usr/local] [DESTDIR=FOLDER]
#
# Nothing is built: dist/ has the proved program. DESTDIR goes before each path, for packages. It
# needs GNU make and the coreutils; xbrl-filing needs Python 3.9 or later when it runs.

PREFIX = /usr/local
DESTDIR =
LIBDIR = $(PREFIX)/lib
PYTHONDIR = $(PREFIX)/lib/python3/dist-packages
ZSHDIR = $(PREFIX)/share/zsh/site-functions

share := $(DESTDIR)$(PREFIX)/share
bin := $(DESTDIR)$(PREFIX)/bin
own := $(share)/xbrl-json
man := $(share)/man/man1
bash := $(share)/bash-completion/completions
fish := $(share)/fish/vendor_completions.d
zsh := $(DESTDIR)$(ZSHDIR)
lib := $(DESTDIR)$(LIBDIR)
python := $(DESTDIR)$(PYTHONDIR)/xbrl_json
modules := $(filter-out %/commands.py,$(wildcard library/python/xbrl_json/*.py))
header := $(DESTDIR)$(PREFIX)/include/xbrl_json.h
programs := xbrl-json xbrl-filing
archive := libxbrl_json.a
shared := libxbrl_json.so.0
has_library := $(wildcard dist/lib/$(shared))

.PHONY: all install install-programs install-library install-python uninstall

all:
	@echo 'usage: make install [PREFIX=/usr/local] [DESTDIR=FOLDER]; make uninstall'

install: install-programs $(if $(has_library),install-library)

install-programs:
	rm -rf $(own)
	install -d $(bin) $(own)/filing $(man) $(bash) $(fish) $(zsh)
	install -m 755 dist/xbrl-json $(bin)/xbrl-json
	install -m 755 xbrl-filing $(own)/xbrl-filing
	install -m 644 filing/*.py $(own)/filing
	ln -sf ../../bin/xbrl-json $(own)/xbrl-json
	ln -sf ../share/xbrl-json/xbrl-filing $(bin)/xbrl-filing
	for it in $(programs); do \
	    install -m 644 docs/$$it.1 $(man)/$$it.1 && \
	    install -m 644 dist/completions/$$it.bash $(bash)/$$it && \
	    install -m 644 dist/completions/$$it.fish $(fish)/$$it.fish && \
	    install -m 644 dist/completions/_$$it $(zsh)/_$$it || exit; \
	done
	$(if $(DESTDIR),,-python3 -m compileall -q $(own)/filing)

install-library:
	install -d $(lib)/pkgconfig $(dir $(header))
	install -m 644 library/xbrl_json.h $(header)
	install -m 644 dist/lib/$(archive) dist/lib/$(shared) $(lib)
	ln -sf $(shared) $(lib)/libxbrl_json.so
	sed -e 's|^prefix=.*|prefix=$(PREFIX)|' -e 's|^libdir=.*|libdir=$(LIBDIR)|' \
	    dist/lib/xbrl_json.pc > $(lib)/pkgconfig/xbrl_json.pc
	chmod 644 $(lib)/pkgconfig/xbrl_json.pc

# For Debian's package of the module; `make install` leaves it out, because pip installs the wheel.
install-python:
	install -d $(python)/filing
	install -m 644 $(modules) library/python/xbrl_json/py.typed $(python)
	install -m 644 filing/*.py $(python)/filing

uninstall:
	rm -f $(foreach it,$(programs),$(bin)/$(it) $(man)/$(it).1 $(bash)/$(it) $(fish)/$(it).fish $(zsh)/_$(it))
	rm -f $(header) $(lib)/$(archive) $(lib)/$(shared) $(lib)/libxbrl_json.so $(lib)/pkgconfig/xbrl_json.pc
	rm -rf $(own)

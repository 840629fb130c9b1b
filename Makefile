# Installs the programs that `rt ci` or `rt run` has built, the lab, manual pages, documents and the book: it builds no program.
#
#     make install|uninstall [prefix=/usr/local] [bindir=..] [mandir=..] [docdir=..] [DESTDIR=..] [program=..] [recorder=..] [site=..]
#
# `site` is the folder that tools/site has written, for `vecmon-lab site`; its book is also that of the documents. Without it the playground
# isn't installed, and tools/documents/book builds the book. `program` and `recorder` are the two programs; by default those of crates/*/out.
# `install-programs`, `install-lab` and `install-documents` install a part each: the Debian packages vecmon, vecmon-lab and vecmon-doc
# (debian/rules).
#
# `uninstall` takes away the files that FILES lists. The lab lies in share/vecmon with all that it reads, as in the repository, so that it
# needs no documents to run.
prefix = /usr/local
bindir = $(prefix)/bin
mandir = $(prefix)/share/man
docdir = $(prefix)/share/doc/vecmon
lab = $(prefix)/share/vecmon
completions = $(prefix)/share/bash-completion/completions
program = crates/vecmon/out/vecmon
recorder = crates/vecmon_record/out/vecmon_record
site =

# All of the lab but what builds the site, what only `tsc` reads, and images of tests alone
lab_files := $(shell find lab/vecmon_lab lab/examples tests/command_lines/data/images -type f ! -path '*/__pycache__/*' ! -name '*.pyc' ! -name '*.d.ts' \
    ! -path 'lab/vecmon_lab/playground/web/*' ! -path lab/vecmon_lab/package.json ! -path '*/images/good' ! -path '*/images/short')
documents = README.md CHANGELOG.md CONTRIBUTING.md SECURITY.md CITATION.cff LICENSE-MIT LICENSE-APACHE crates.txt crates/monitor_script/src/script.rt $(wildcard docs/*.md docs/*.csv docs/*.json docs/pictures/* editors/*/*)
# Outside of the folders that are vecmon's alone, $(lab) and $(docdir)
commands = $(shell sed -n 's/^\([a-z][a-z]*\) .*/\1/p' lab/vecmon_lab/tables/lab_commands.txt)
others = $(bindir)/vecmon $(bindir)/vecmon-record $(bindir)/vecmon-lab $(mandir)/man1/vecmon.1 $(mandir)/man1/vecmon-record.1 \
    $(mandir)/man1/vecmon-lab.1 $(mandir)/man5/vecmon-commands.5 $(mandir)/man7/vecmon-instructions.7 $(completions)/vecmon $(completions)/vecmon-record \
    $(completions)/vecmon-lab $(commands:%=$(mandir)/man1/vecmon-lab-%.1)
copy = install -D -m 644
link = ln -s -f -n --relative
page = umask 022; packaging/manual_page $(1) $(2) $(3) docs/$(4) > "$(DESTDIR)$(mandir)/man$(2)/$(1).$(2)"

install: install-programs install-lab install-documents
	$(MAKE) -s list

install-programs:
	@test -x "$(program)" || { echo 'make install: $(program) not found: build it with `cd crates/vecmon && rt run < stdin` (docs/MEASUREMENTS.md has the times)' >&2; exit 2; }
	@test -x "$(recorder)" || { echo 'make install: $(recorder) not found: build it with `cd crates/vecmon_record && rt run < stdin`' >&2; exit 2; }
	@command -v lowdown > /dev/null || { echo 'make install: lowdown not found: it makes the manual pages; run tools/building/debian_packages packaging' >&2; exit 2; }
	install -d "$(DESTDIR)$(bindir)" "$(DESTDIR)$(mandir)/man1" "$(DESTDIR)$(mandir)/man5" "$(DESTDIR)$(mandir)/man7"
	install -m 755 "$(program)" "$(DESTDIR)$(bindir)/vecmon"
	install -m 755 "$(recorder)" "$(DESTDIR)$(bindir)/vecmon-record"
	$(copy) crates/vecmon/first_vectors "$(DESTDIR)$(docdir)/examples/first_vectors"
	$(call page,vecmon,1,'trainer machine for the RISC-V vector extension',PROGRAM.md)
	$(call page,vecmon-record,1,'records what a program does on the machine of vecmon',RECORDER.md)
	$(call page,vecmon-commands,5,'scripts and commands of vecmon',COMMANDS.md)
	umask 022; sed -f packaging/instructions.sed docs/INSTRUCTIONS.md | \
	    packaging/manual_page vecmon-instructions 7 'what each instruction of vecmon does' - > "$(DESTDIR)$(mandir)/man7/vecmon-instructions.7"
	$(copy) packaging/completion "$(DESTDIR)$(completions)/vecmon"
	$(link) "$(DESTDIR)$(completions)/vecmon" "$(DESTDIR)$(completions)/vecmon-record"

install-lab:
	@command -v lowdown > /dev/null || { echo 'make install: lowdown not found: it makes the manual pages; run tools/building/debian_packages packaging' >&2; exit 2; }
	@command -v help2man > /dev/null || { echo 'make install: help2man not found: it makes the manual pages of the lab; run tools/building/debian_packages packaging' >&2; exit 2; }
	install -d "$(DESTDIR)$(mandir)/man1" "$(DESTDIR)$(completions)"
	install -D -m 755 packaging/vecmon-lab -t "$(DESTDIR)$(bindir)"
	sed -i 's,\.\./share/vecmon,$(shell realpath -m --relative-to="$(bindir)" "$(lab)"),' "$(DESTDIR)$(bindir)/vecmon-lab"
	for file in $(lab_files); do $(copy) $$file "$(DESTDIR)$(lab)/$$file" || exit; done
	test -z "$(site)" || { install -d "$(DESTDIR)$(lab)/site" && cp -r --no-preserve=mode,ownership "$(site)"/. "$(DESTDIR)$(lab)/site"; }
	$(call page,vecmon-lab,1,'front end of vecmon with lessons and classes',LAB.md)
	umask 022; packaging/lab_pages "$(DESTDIR)$(mandir)/man1"
	$(link) "$(DESTDIR)$(completions)/vecmon" "$(DESTDIR)$(completions)/vecmon-lab"

install-documents:
	@test -n "$(site)" || /usr/bin/python3 -c 'import sphinx, myst_parser, furo' 2> /dev/null || { echo 'make install: sphinx, myst-parser or furo not found: they make the book; run tools/building/debian_packages book' >&2; exit 2; }
	install -d "$(DESTDIR)$(docdir)/examples"
	for file in $(documents); do $(copy) $$file "$(DESTDIR)$(docdir)/$$file" || exit; done
	$(link) "$(DESTDIR)$(lab)/lab" "$(DESTDIR)$(docdir)/lab"
	$(link) "$(DESTDIR)$(lab)/lab/examples" "$(DESTDIR)$(docdir)/examples/sources"
	$(link) "$(DESTDIR)$(lab)/lab/vecmon_lab/exercises/given" "$(DESTDIR)$(docdir)/examples/exercises"
	$(link) "$(DESTDIR)$(lab)/lab/vecmon_lab/lessons/tours" "$(DESTDIR)$(docdir)/examples/tour"
	umask 022; tools/releasing/vsix "$(DESTDIR)$(docdir)/vecmon.vsix"
	test -n "$(site)" || tools/documents/book "$(DESTDIR)$(docdir)/html"
	umask 022; test -z "$(site)" || { rm -rf "$(DESTDIR)$(docdir)/html" && cp -r --no-preserve=mode,ownership "$(site)/book" "$(DESTDIR)$(docdir)/html"; }

# Writes FILES: the path of each file and link from $(prefix) on.
list:
	touch "$(DESTDIR)$(lab)/FILES"
	find "$(DESTDIR)$(lab)" "$(DESTDIR)$(docdir)" $(others:%="$(DESTDIR)%") ! -type d -print0 | \
	    xargs -0 realpath -s --relative-to="$(DESTDIR)$(prefix)" | LC_ALL=C sort > "$(DESTDIR)$(lab)/FILES"

uninstall:
	(cd "$(DESTDIR)$(prefix)" && xargs -d '\n' rm -f) < "$(DESTDIR)$(lab)/FILES"
	find "$(DESTDIR)$(lab)" "$(DESTDIR)$(docdir)" -type d -empty -delete

.PHONY: install install-programs install-lab install-documents list uninstall

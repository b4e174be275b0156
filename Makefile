PROGRAMS = icont iconx
PREFIX = /usr/local
DESTDIR =
SOURCES = $(shell find crates -type f -not -path '*/out/*' -not -path '*/data/*')

# Where the programs and their pages go. The shell takes no ~ in quotes for a home.
ROOM = $(DESTDIR)$(if $(filter ~/%,$(firstword $(PREFIX))),$(patsubst ~/%,$(HOME)/%,$(PREFIX)),$(PREFIX))

.PHONY: all test statuses install uninstall run clean

all: $(PROGRAMS:%=bin/%)

# A program is built by proving it, and by one run on a first example.
FIRST_icont = ../../examples/hello.icn -x
FIRST_iconx = data/hi

bin/%: crates.txt examples/hello.icn tools/build.py $(SOURCES)
	@python3 tools/build.py $* $@ $(FIRST_$*)

# The rows run their own copies of the examples, since a crate reads no file outside its folder.
test:
	@for example in examples/*.icn; do cmp $$example crates/test_commands/data/$${example##*/} || exit 1; done
	python3 tools/names.py
	python3 tools/type_names.py
	python3 tools/libraries.py
	python3 tools/places.py --check
	python3 tools/file_lists.py --check
	python3 tools/links.py
	python3 tools/reading.py --check
	.ci/run

# The built programs, once for each status, with both outputs told apart.
statuses: all
	python3 tools/statuses.py bin/icont bin/iconx

install: all
	install -d "$(ROOM)/bin" "$(ROOM)/share/man/man1"
	install $(PROGRAMS:%=bin/%) "$(ROOM)/bin"
	install -m 644 $(PROGRAMS:%=man/%.1) "$(ROOM)/share/man/man1"

uninstall:
	rm -f $(foreach program,$(PROGRAMS),"$(ROOM)/bin/$(program)" "$(ROOM)/share/man/man1/$(program).1")

run: all
	@bin/icont $(FILE) -x

clean:
	rm -rf bin crates/*/out

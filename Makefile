# make demo      builds the proved program and runs it on examples/first-loop/ in a fresh folder
# make live-demo plays a session live, with no sound card, and renders its journal over the same input, in a fresh folder
# make examples  renders every session of examples/ into out/examples, and says what each second has
# make picture   draws one of them as docs/two-loops.svg
# make test      the gate: every proof, must-fail edit, test and program, and the repository's own checks
# make install   puts the program and its manual page under PREFIX
# make deb       makes a Debian package of them and the examples, out/looper_VERSION_amd64.deb
# `rt` has to be on the PATH, and python3. Only a proved program is built: from nothing that takes its time, and tools/build says how long.

PREFIX ?= /usr/local
PROGRAM = crates/looper/out/looper
DEMO = out/demo

.PHONY: all demo live-demo examples picture test install deb

all:
	@tools/build looper

demo: all
	rm -rf $(DEMO)
	mkdir -p $(DEMO)
	cp examples/first-loop/in.wav examples/first-loop/journal.txt $(DEMO)
	cd $(DEMO) && $(CURDIR)/$(PROGRAM) render in.wav journal.txt out.wav
	@ls -l $(DEMO)
	@checks/phrase_repeats.sh $(DEMO)
	@echo "To hear it: aplay $(DEMO)/out.wav, or sox $(DEMO)/out.wav -d"
	@echo
	@echo "'make examples' renders all sessions of examples/ into out/examples:"
	@sed -n 's/^| \[\([^]]*\)\].*| \(.*\) |$$/  \1: \2/p' examples/README.md
	@echo "To hear one: aplay out/examples/layers/out.wav, or sox out/examples/layers/out.wav -d"

live-demo: all
	rm -rf $(DEMO)-live
	@examples/live/demo.py $(PROGRAM) $(DEMO)-live
	@echo
	@echo "Its files are in $(DEMO)-live. To play one yourself on a sound card: tools/play default --journal take.txt"

examples: all
	rm -rf out/examples
	mkdir -p out/examples
	checks/examples.py $(PROGRAM) out/examples

picture: all
	mkdir -p out
	LOOPER=$(PROGRAM) tools/picture examples/two-loops/in.wav examples/two-loops/journal.txt --loops 2 > out/picture.svg
	mv out/picture.svg docs/two-loops.svg

test:
	.ci/run

install: all
	install -d "$(DESTDIR)$(PREFIX)/bin" "$(DESTDIR)$(PREFIX)/share/man/man1"
	install -m 755 $(PROGRAM) "$(DESTDIR)$(PREFIX)/bin/looper"
	install -m 644 docs/looper.1 "$(DESTDIR)$(PREFIX)/share/man/man1/looper.1"

deb: all
	@tools/deb $(PROGRAM) out

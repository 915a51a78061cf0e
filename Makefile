# Each target is a command of tools/dev; `tools/dev --help` lists all of them.
PREFIX ?= /usr/local

.PHONY: build test gate install lint bench doc
build:
	tools/dev build
test: build
	tools/dev test
gate:
	tools/dev gate
install:
	tools/dev install --prefix $(DESTDIR)$(PREFIX)
lint:
	tools/dev lint
bench:
	tools/dev bench
doc:
	tools/dev doc

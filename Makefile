# make demo: an image is packed into a UBF file and loaded into a simulated module, and the flash is compared. make loader: the loader
# of target/zrnkobal, over the proved library. make test: all checks.
.PHONY: demo loader test

# Another archive of the library than the one that tools/archive makes.
ARCHIVE ?= target/archive/libexports.a
CC = gcc
CFLAGS = -std=gnu11 -Wall -Wextra -Werror -O2

demo: loader
	@tools/prove pack
	@tools/build pack
	@tools/demo

loader:
	@tools/prove exports
	@tools/archive exports >target/archive.log 2>&1 || { cat target/archive.log; exit 1; }
	@$(MAKE) -s target/zrnkobal

target/zrnkobal: $(wildcard loader/*) include/zrnkobal.h $(ARCHIVE)
	@mkdir -p target
	@$(CC) $(CFLAGS) -Iinclude loader/*.c $(ARCHIVE) -o target/zrnkobal
	@echo "target/zrnkobal: built"

test:
	@tests/all

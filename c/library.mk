# The archives of crates/tower_c, tower_images and tower_threads, $(LIB), $(IMAGES) and $(THREADS_LIB), made again if
# anything that they depend on has changed. One of today's sources is taken from prebuilt/. Otherwise it is proved and
# built: an archive is built only from a proved crate. TOWER is the repository's folder. The sources' folders are among
# the sources: a folder changes when a file is added or removed.
LIB = $(TOWER)/crates/tower_c/out/libtower_c.a
IMAGES = $(TOWER)/crates/tower_images/out/libtower_images.a
THREADS_LIB = $(TOWER)/crates/tower_threads/out/libtower_threads.a
sources_of = $(shell find $(foreach crate,$(shell $(TOWER)/c/below $(1)),$(wildcard $(addprefix $(TOWER)/crates/$(crate)/,src specs proofs))))
TOWER_SOURCES := $(call sources_of,tower_c)
IMAGES_SOURCES := $(call sources_of,tower_images)
THREADS_SOURCES := $(call sources_of,tower_threads)

$(LIB): $(TOWER)/crates.txt $(TOWER_SOURCES)
	@$(TOWER)/c/take tower_c || { cd $(TOWER)/crates/tower_c && rt lib; }
	touch $@

$(IMAGES): $(TOWER)/crates.txt $(IMAGES_SOURCES)
	@$(TOWER)/c/take tower_images || { cd $(TOWER)/crates/tower_images && rt lib; }
	touch $@

$(THREADS_LIB): $(TOWER)/crates.txt $(THREADS_SOURCES)
	@$(TOWER)/c/take tower_threads || { cd $(TOWER)/crates/tower_threads && rt lib; }
	touch $@

# (no rule makes a source: make looks for none)
$(TOWER)/crates.txt $(sort $(TOWER_SOURCES) $(IMAGES_SOURCES) $(THREADS_SOURCES)): ;

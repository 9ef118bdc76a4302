/* How engines get at frames. The core's block is ordinary memory, except for frames that an engine has: such a frame is memory
 * of a file of its own, whose descriptor the engine gets. What the core takes from a process is moved off its file. */
#pragma once

#include "engine.h"

/* As many descriptors as frames are needed. Once, before any engine. */
void frames_begin(uint32_t frames);
/* The page of a process's engine is on this frame from its next order on. If it `may` not be written, no process of the host
 * can write there by what it has got. Otherwise the engine is trusted to write only once `write` is true. */
void frames_show(uint32_t pid, uint32_t page, uint32_t frame, bool may, bool write);
/* The process may not have the page any more, which was on that frame, or was lazy (0): what any process has got of it leads
 * nowhere from now on. */
void frames_revoke(uint32_t pid, uint32_t page, uint32_t frame);
/* An engine's process is gone. */
void frames_forget(struct engine *it);

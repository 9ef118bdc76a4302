/* Images of the kernel's core, for C: the functions of libtower_images.a, an archive next to libtower_c.a.
 * docs/IMAGES.md has an image's bytes and the clauses of its check, docs/C-LIBRARY.md what is proved of each function.
 *
 * What tower.h requires of handles, calls, pointers and slices holds here too. These functions allocate with
 * rattle_alloc, and free all of it before they return, except what a restored core needs until tower_free.
 */
#ifndef TOWER_IMAGES_H
#define TOWER_IMAGES_H

#include "tower.h"
#include "tower_text.h"

#ifdef __cplusplus
extern "C" {
#endif

/* How many bytes the image of a core of that many frames has. */
#define TOWER_IMAGE_LENGTH(frames) ((size_t)1548 + (size_t)4112 * (frames))

/* The statuses of tower_image. */
enum tower_image_status {
    TOWER_IMAGE_WRITTEN = 0,
    TOWER_IMAGE_NO_CORE = 1,
    TOWER_IMAGE_NO_MEMORY = 2,
    TOWER_IMAGE_TOO_SHORT = 3,  /* there are fewer bytes than `size` says */
    TOWER_IMAGE_TOO_MANY_FRAMES = 4,  /* the core has more than TOWER_MAX_FRAMES, the most of an image */
};

/* The statuses of a check. */
enum tower_check_status {
    TOWER_SOUND = 0,
    TOWER_CHECK_NO_CORE = 1,
    TOWER_CHECK_NO_MEMORY = 2,
    TOWER_PROCESS_FAILS = 3,  /* process `number` fails P`clause`, 1 to 7; those before it fail none */
    TOWER_FRAME_FAILS = 4,    /* no process fails a clause; frame `number` fails F`clause`, 1 to 5 */
    TOWER_NOT_IMAGE = 5,      /* the first reason against the bytes is `clause`, a tower_image_fault */
};

/* A status of tower_check_whole and tower_restore_whole: the machine refuses the image's offer `number`, counted from 0.
 * Of the other statuses these have the same as tower_check_bytes and tower_restore, without TOWER_RESTORE_OLD_WORDS. */
#define TOWER_OFFER_REFUSED 8

enum tower_image_fault {
    TOWER_FAULT_NOT_IMAGE = 1,
    TOWER_FAULT_BAD_LENGTH = 2,
    TOWER_FAULT_BAD_VERSION = 3,
    TOWER_FAULT_BAD_FIELD = 4,  /* the field at byte `number`, which is 0 with the other reasons */
};

/* What fails, and which clause of it. */
struct tower_verdict {
    uint32_t number;
    uint32_t clause;
};

/* The names of these statuses, of the reasons against bytes, and of a clause of docs/IMAGES.md: "P1" to "P7" for
 * TOWER_PROCESS_FAILS, "F1" to "F5" for TOWER_FRAME_FAILS. "" for any other number. */
static inline const char *tower_image_status_name(uint32_t status) {
    switch (status) {
    case TOWER_IMAGE_WRITTEN: return "Written";
    case TOWER_IMAGE_NO_CORE: return "NoCore";
    case TOWER_IMAGE_NO_MEMORY: return "NoMemory";
    case TOWER_IMAGE_TOO_SHORT: return "TooShort";
    case TOWER_IMAGE_TOO_MANY_FRAMES: return "TooManyFrames";
    default: return "";
    }
}

static inline const char *tower_check_status_name(uint32_t status) {
    switch (status) {
    case TOWER_SOUND: return "Sound";
    case TOWER_CHECK_NO_CORE: return "NoCore";
    case TOWER_CHECK_NO_MEMORY: return "NoMemory";
    case TOWER_PROCESS_FAILS: return "ProcessFails";
    case TOWER_FRAME_FAILS: return "FrameFails";
    case TOWER_NOT_IMAGE: return "NotImage";
    default: return "";
    }
}

static inline const char *tower_image_fault_name(uint32_t fault) {
    switch (fault) {
    case TOWER_FAULT_NOT_IMAGE: return "NotImage";
    case TOWER_FAULT_BAD_LENGTH: return "BadLength";
    case TOWER_FAULT_BAD_VERSION: return "BadVersion";
    case TOWER_FAULT_BAD_FIELD: return "BadField";
    default: return "";
    }
}

static inline const char *tower_clause_name(uint32_t status, uint32_t clause) {
    static const char *const names[2][7] = {{"P1", "P2", "P3", "P4", "P5", "P6", "P7"},
                                            {"F1", "F2", "F3", "F4", "F5", "", ""}};
    bool is_clause = (status == TOWER_PROCESS_FAILS || status == TOWER_FRAME_FAILS) && clause - 1 < 7;
    return is_clause ? names[status - TOWER_PROCESS_FAILS][clause - 1] : "";
}

/* Writes the verdict with a status of 0, 3 to 5 or 8 as `tower check` prints it, such as "sound", "process 3 P2", "frame 9
 * F4", "bad field at byte 16" or "offer 2". With any other status the text is empty. The rest is as in tower_text.h. */
static inline size_t tower_verdict_text(uint32_t status, const struct tower_verdict *verdict, char *to, size_t size) {
    static const char *const faults[] = {"not an image", "wrong image length", "unknown image version",
                                         "bad field at byte"};
    struct tower_text text = {to, size, 0};
    if (status == TOWER_SOUND) {
        tower_put_letters(&text, "sound");
    } else if (status == TOWER_PROCESS_FAILS || status == TOWER_FRAME_FAILS) {
        tower_put_letters(&text, status == TOWER_PROCESS_FAILS ? "process" : "frame");
        tower_put_decimal(&text, verdict->number);
        tower_put_letter(&text, ' ');
        tower_put_letters(&text, tower_clause_name(status, verdict->clause));
    } else if (status == TOWER_NOT_IMAGE && verdict->clause - 1 < 4) {
        tower_put_letters(&text, faults[verdict->clause - 1]);
        if (verdict->clause == TOWER_FAULT_BAD_FIELD) {
            tower_put_decimal(&text, verdict->number);
        }
    } else if (status == TOWER_OFFER_REFUSED) {
        tower_put_letters(&text, "offer");
        tower_put_decimal(&text, verdict->number);
    }
    return tower_end_text(&text);
}

/* Writes the image of the core at the start of `bytes`. `size` becomes the number of bytes that the image has, whenever
 * there is a core of at most TOWER_MAX_FRAMES; call it with a count of 0 to get only the size. If the status is not
 * TOWER_IMAGE_WRITTEN, no byte is written. It changes nothing of the core. */
TOWER_NODISCARD uint32_t tower_image(const struct tower *tower, uint8_t *bytes, size_t byte_count, size_t *size);

/* Checks the image of the core, and changes nothing of the core. It copies none of the core's memory, so that of any
 * number of frames can be checked: it requests 10 bytes for each frame. It is proved that the status is TOWER_SOUND,
 * TOWER_CHECK_NO_CORE or TOWER_CHECK_NO_MEMORY, and that nothing is written. TOWER_PROCESS_FAILS or TOWER_FRAME_FAILS
 * says that something else wrote in the core's memory, or that C breaks a requirement of tower.h. */
TOWER_NODISCARD uint32_t tower_check(const struct tower *tower, struct tower_verdict *verdict);

/* Checks the image that bytes encode, whatever wrote them. It takes no handle. The verdict is written if something
 * fails, or the bytes encode no image; otherwise it is unchanged. */
TOWER_NODISCARD uint32_t tower_check_bytes(const uint8_t *bytes, size_t byte_count, struct tower_verdict *verdict);

/* The statuses of a restore, in addition to TOWER_PROCESS_FAILS, TOWER_FRAME_FAILS and TOWER_NOT_IMAGE. */
enum tower_restore_status {
    TOWER_RESTORED = 0,
    TOWER_RESTORE_HAS_CORE = 1,
    TOWER_RESTORE_NO_MEMORY = 2,
    TOWER_RESTORE_OLD_WORDS = 6,  /* the image is of version 1 */
};

/* The name of a status of tower_restore; "" for a number that is no status. */
static inline const char *tower_restore_status_name(uint32_t status) {
    switch (status) {
    case TOWER_RESTORED: return "Restored";
    case TOWER_RESTORE_HAS_CORE: return "HasCore";
    case TOWER_RESTORE_NO_MEMORY: return "NoMemory";
    case TOWER_PROCESS_FAILS: return "ProcessFails";
    case TOWER_FRAME_FAILS: return "FrameFails";
    case TOWER_NOT_IMAGE: return "NotImage";
    case TOWER_RESTORE_OLD_WORDS: return "OldWords";
    default: return "";
    }
}

/* Restores a core from the image that bytes encode, if the handle has no core. Its state is the one that the image
 * represents, and no offer is pending. With any status but TOWER_RESTORED the handle is unchanged. The verdict is
 * written as tower_check_bytes writes it. */
TOWER_NODISCARD uint32_t tower_restore(const uint8_t *bytes, size_t byte_count, struct tower *tower,
                                       struct tower_verdict *verdict);

/* ---- Snapshots: a core of any size, with its pending offers. Free frames are not stored. */

/* How many bytes a snapshot with that many offers begins with, up to the records of frames; and how many a record has. */
#define TOWER_FRONT_LENGTH(offers) ((size_t)1556 + (size_t)16 * (offers))
#define TOWER_RECORD_BYTES 4116

/* The statuses of tower_store_front and tower_store_frame. */
enum tower_store_status {
    TOWER_STORED = 0,
    TOWER_STORE_NO_CORE = 1,
    TOWER_STORE_NO_MEMORY = 2,
    TOWER_STORE_TOO_SHORT = 3,
    TOWER_STORE_FREE_FRAME = 4, /* the frame is free, or there is none of that number: it has no record */
};

/* The name of a status of tower_store_front and tower_store_frame; "" for a number that is no status. */
static inline const char *tower_store_status_name(uint32_t status) {
    switch (status) {
    case TOWER_STORED: return "Stored";
    case TOWER_STORE_NO_CORE: return "NoCore";
    case TOWER_STORE_NO_MEMORY: return "NoMemory";
    case TOWER_STORE_TOO_SHORT: return "TooShort";
    case TOWER_STORE_FREE_FRAME: return "FreeFrame";
    default: return "";
    }
}

/* The name of a status of tower_check_whole and tower_restore_whole; "" for a number that is no status. */
static inline const char *tower_whole_status_name(uint32_t status) {
    switch (status) {
    case TOWER_OFFER_REFUSED: return "OfferRefused";
    case TOWER_RESTORE_OLD_WORDS: return "";
    default: return tower_restore_status_name(status);
    }
}

/* Writes what the snapshot begins with, up to the records of frames, at the start of `bytes`. `size` becomes the number of
 * bytes that this has, unless the status is TOWER_STORE_NO_CORE or TOWER_STORE_NO_MEMORY; call it with a count of 0 to get
 * only the size. If the status is not TOWER_STORED, no byte is written. It changes nothing of the core. */
TOWER_NODISCARD uint32_t tower_store_front(const struct tower *tower, uint8_t *bytes, size_t byte_count, size_t *size);

/* Writes the record of a frame at the start of `bytes`, TOWER_RECORD_BYTES of them. If the status is not TOWER_STORED, no
 * byte is written. The snapshot of the core is what tower_store_front writes, and then the records of frames 0, 1, 2 and so
 * on to the last. It changes nothing of the core. */
TOWER_NODISCARD uint32_t tower_store_frame(const struct tower *tower, uint32_t frame, uint8_t *bytes,
                                           size_t byte_count);

/* Checks the snapshot that bytes encode, and its offers, by a core that is made of it and freed. The verdict is
 * written as tower_check_bytes writes it; the place of a field past byte 4,294,967,295 is that number. */
TOWER_NODISCARD uint32_t tower_check_whole(const uint8_t *bytes, size_t byte_count, struct tower_verdict *verdict);

/* Restores a core from the snapshot that bytes encode, if the handle has no core: the machine that was stored,
 * with its offers. With any status but TOWER_RESTORED the handle is unchanged. The verdict is written as
 * tower_check_whole writes it. The bytes may be a file that is mapped: they are read once, from the front on. */
TOWER_NODISCARD uint32_t tower_restore_whole(const uint8_t *bytes, size_t byte_count, struct tower *tower,
                                             struct tower_verdict *verdict);

/* As in tower.h: a program calls these without `_inline`. In place of NULL with a count of 0 they pass the address of
 * an object. */
TOWER_NODISCARD static inline uint32_t tower_image_inline(const struct tower *tower, uint8_t *bytes, size_t byte_count,
                                                          size_t *size) {
    uint8_t byte = 0;
    return tower_image(tower, byte_count || bytes ? bytes : &byte, byte_count, size);
}

TOWER_NODISCARD static inline uint32_t tower_check_bytes_inline(const uint8_t *bytes, size_t byte_count,
                                                                struct tower_verdict *verdict) {
    const uint8_t byte = 0;
    return tower_check_bytes(byte_count || bytes ? bytes : &byte, byte_count, verdict);
}

TOWER_NODISCARD static inline uint32_t tower_restore_inline(const uint8_t *bytes, size_t byte_count,
                                                            struct tower *tower, struct tower_verdict *verdict) {
    const uint8_t byte = 0;
    return tower_restore(byte_count || bytes ? bytes : &byte, byte_count, tower, verdict);
}

TOWER_NODISCARD static inline uint32_t tower_store_front_inline(const struct tower *tower, uint8_t *bytes,
                                                                size_t byte_count, size_t *size) {
    uint8_t byte = 0;
    return tower_store_front(tower, byte_count || bytes ? bytes : &byte, byte_count, size);
}

TOWER_NODISCARD static inline uint32_t tower_store_frame_inline(const struct tower *tower, uint32_t frame,
                                                                uint8_t *bytes, size_t byte_count) {
    uint8_t byte = 0;
    return tower_store_frame(tower, frame, byte_count || bytes ? bytes : &byte, byte_count);
}

TOWER_NODISCARD static inline uint32_t tower_check_whole_inline(const uint8_t *bytes, size_t byte_count,
                                                                struct tower_verdict *verdict) {
    const uint8_t byte = 0;
    return tower_check_whole(byte_count || bytes ? bytes : &byte, byte_count, verdict);
}

TOWER_NODISCARD static inline uint32_t tower_restore_whole_inline(const uint8_t *bytes, size_t byte_count,
                                                                  struct tower *tower, struct tower_verdict *verdict) {
    const uint8_t byte = 0;
    return tower_restore_whole(byte_count || bytes ? bytes : &byte, byte_count, tower, verdict);
}

#define tower_image tower_image_inline
#define tower_check_bytes tower_check_bytes_inline
#define tower_restore tower_restore_inline
#define tower_store_front tower_store_front_inline
#define tower_store_frame tower_store_frame_inline
#define tower_check_whole tower_check_whole_inline
#define tower_restore_whole tower_restore_whole_inline

#ifdef __cplusplus
}
#endif
#endif

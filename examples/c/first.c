#include <stdio.h>
#include <tower.h>

int main(void) {
    struct tower core = TOWER_NONE;
    struct tower_reply reply;
    struct tower_ended stale;
    struct tower_event calls[] = {
        tower_spawn(0, 10),                      /* process 0 spawns process 1, with a quota of 10 frames */
        tower_map(1, 0x40000, TOWER_READ_WRITE), /* process 1 maps page 0x40000, at address 0x40000000 */
        tower_store(1, 0x40000ffc, 4, 0xdeadbeef), tower_load(1, 0x40000ffc, 4), tower_unmap(1, 0x40000)};
    if (tower_boot(64, &core) != TOWER_BOOTED) return 1; /* 64 frames of 4,096 bytes */
    for (int k = 0; k < 5 && tower_step_ending(&core, &calls[k], &reply, &stale); k++)
        printf("%s %x, invalidate: %s\n", tower_kind_name(reply.kind), reply.first, tower_ending_name(stale.kind));
    tower_free(&core);
}

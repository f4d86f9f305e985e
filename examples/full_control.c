/* A tour folder is granted to the crew in full, 10000000, and a plan lies in it: the tree of full_control.txt. Who may open them?
 * Under rule 2 the bit joins the "all" mapping and is then cleared. Under rule 1, the printed text, it stands for nothing, and so it
 * did under rule 2 before: the folder was granted in full, and the check said no to everybody. */
#include <inttypes.h>
#include <stdio.h>
#include <stdlib.h>

#include "pipeteasel.h"

enum { READ = 1, CHANGE = 2, EVERYTHING = 0x001F01FF };
enum { FOLDER = 0, PLAN = 1 };

static const uint32_t mapping[4] = {0x00120089, 0x00120116, 0x001200A0, EVERYTHING};
static const uint8_t type[16] = {0};
static const uint8_t owner[] = {1, 1, 0, 0, 0, 0, 0, 5, 18, 0, 0, 0};                  /* S-1-5-18 */
static const uint8_t crew[] = {1, 2, 0, 0, 0, 0, 0, 5, 21, 0, 0, 0, 3, 0, 0, 0};       /* S-1-5-21-3 */
static const uint8_t others[] = {1, 2, 0, 0, 0, 0, 0, 5, 21, 0, 0, 0, 4, 0, 0, 0};     /* S-1-5-21-4 */
static const uint8_t granted[] = {2, 0, 32, 0, 1, 0, 0, 0,                              /* one entry: */
                                  0, 3, 24, 0, 0, 0, 0, 0x10,                           /* allow, for all below, 10000000 */
                                  1, 2, 0, 0, 0, 0, 0, 5, 21, 0, 0, 0, 3, 0, 0, 0};     /* to the crew */

static void show_mask(const char *what, const uint8_t *list, size_t list_len)
{
    uint32_t entry[8], answer[8];

    pt_step(list, list_len, 0, entry, answer);
    printf("  %s: mask %08" PRIX32 "\n", what, entry[3]);
}

static void ask(const char *what, const uint8_t *list, size_t list_len, const uint8_t held[16], uint32_t wanted)
{
    uint32_t answer[8];

    pt_may_open(1, list, list_len, type, held, 16, wanted, answer);
    printf("  %s: %s\n", what, answer[0] != PT_DONE ? "refused" : answer[3] ? "yes" : "no");
}

static void show_tree(uint32_t rule, uint8_t *room, size_t room_len)
{
    uint8_t folder[1024], plan[1024];
    uint32_t answer[8];
    size_t folder_len, plan_len;

    pt_start(room, room_len, 2, 0, rule, mapping, 0, NULL, 0, answer);
    pt_add(room, room_len, PT_NO_PARENT, PT_IS_CONTAINER | PT_HAS_LIST, type, owner, sizeof owner, owner, sizeof owner,
           granted, sizeof granted, answer);
    pt_add(room, room_len, FOLDER, 0, type, owner, sizeof owner, owner, sizeof owner, NULL, 0, answer);
    pt_list(room, room_len, FOLDER, folder, sizeof folder, answer);
    folder_len = answer[3];
    pt_list(room, room_len, PLAN, plan, sizeof plan, answer);
    plan_len = answer[3];

    printf("rule %" PRIu32 "\n", rule);
    show_mask("the folder", folder, folder_len);
    show_mask("the plan", plan, plan_len);
    ask("the crew reads the folder", folder, folder_len, crew, READ);
    ask("the crew changes the plan", plan, plan_len, crew, CHANGE);
    ask("the crew does everything with the plan", plan, plan_len, crew, EVERYTHING);
    ask("others read the plan", plan, plan_len, others, READ);
}

int main(void)
{
    size_t room_len = pt_room(2, 0);
    uint8_t *room = malloc(room_len);

    if (!room)
        return 1;
    show_tree(2, room, room_len);
    show_tree(1, room, room_len);
    free(room);
    return 0;
}

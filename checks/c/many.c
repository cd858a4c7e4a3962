/* Fetches a URL so many times through one multi handle, so many at once: many URL COUNT AT-ONCE LENGTH. The handle has room for few events,
   and is never idle, so that history is retired while transfers run. Prints how many bodies of that length came. */
#include "common.h"
#include <stdlib.h>

int main(int argc, char **argv) {
  if (argc < 5) return 2;
  uint32_t count = (uint32_t)atoi(argv[2]), at_once = (uint32_t)atoi(argv[3]), added = 0, done = 0, right = 0;
  uint64_t length = (uint64_t)atoll(argv[4]);
  mx_multi multi = {NULL};
  mx_code refused = 0;
  if (mx_multi_open(4 * at_once + 64, at_once > 64 ? 64 : at_once, &multi.at) != MXM_OK) return 1;
  while (done < count && !failed) {
    while (added < count && added - done < at_once) {
      mx_mcode answer = add(multi, added % 100000, "GET", argv[1], "", NULL, 60000, 5, &refused);
      if (answer == MXM_HISTORY_FULL) {
        IS(mx_multi_retire(multi), MXM_OK);
        answer = add(multi, added % 100000, "GET", argv[1], "", NULL, 60000, 5, &refused);
      }
      IS(answer, MXM_OK);
      added++;
    }
    go_on(multi);
    mx_message message;
    mx_outcome outcome;
    while (mx_multi_info_read(multi, &message, &outcome.at) == MXM_OK) {
      static char room[65536];
      uint64_t got = 0, many;
      while ((many = mx_outcome_body(outcome, got, room, sizeof room)) > 0) got += many;
      right += message.code == 0 && got == length;
      mx_outcome_close(outcome);
      IS(mx_multi_remove(multi, message.handle), MXM_OK);
      done++;
    }
    wait_for(multi, 1000);
  }
  mx_multi_close(multi);
  printf("%u of %u are right\n", right, count);
  return failed || right != count;
}

/* Fetches URLs, all at once, and prints what each ended with: cc get.c -lmx */
#include <inttypes.h>
#include <mx_multi.h>
#include <poll.h>
#include <stdio.h>
#include <string.h>

int main(int argc, char **argv) {
  mx_multi multi;
  mx_how how = {0, 30000, 10, 0};
  uint32_t running = 0, ticket;
  if (mx_multi_open(1048576, 8, &multi.at) != MXM_OK) return 1;
  for (int i = 1; i < argc; i++) {
    mx_code refused = 27;
    if (mx_multi_add(multi, (uint32_t)i, "GET", 3, argv[i], strlen(argv[i]), "", 0, "", 0, &how, &ticket, &refused) != MXM_OK)
      printf("%s: refused with %" PRIu32 "\n", argv[i], refused);
  }
  do {
    mx_message message;
    mx_outcome outcome;
    mx_end end;
    mx_multi_perform(multi, &running);
    while (mx_multi_info_read(multi, &message, &outcome.at) == MXM_OK) {
      mx_outcome_end(outcome, &end);
      printf("%s: code %" PRIu32 ", status %" PRIu32 ", %" PRIu64 " bytes\n", argv[message.handle], end.code, end.status, end.body);
      mx_outcome_close(outcome);
      mx_multi_remove(multi, message.handle);
    }
    struct pollfd descriptor = {mx_multi_fd(multi), POLLIN, 0};
    int64_t wait = mx_multi_timeout(multi);
    if (running > 0) poll(&descriptor, 1, wait > 60000 ? 60000 : (int)wait);
  } while (running > 0);
  mx_multi_close(multi);
  return 0;
}

/* What the C programs of the checks have in common. */
#include "mx_multi.h"
#include <poll.h>
#include <stdio.h>
#include <string.h>

static int failed;
#define IS(value, wanted) do { \
    long long value_ = (long long)(value), wanted_ = (long long)(wanted); \
    if (value_ != wanted_) { \
      printf("line %d: %s is %lld, not %lld\n", __LINE__, #value, value_, wanted_); \
      failed = 1; \
    } \
  } while (0)

static mx_mcode add(mx_multi multi, uint32_t handle, const char *method, const char *url, const char *fields, const char *body,
                    uint32_t timeout_ms, uint32_t max_redirects, mx_code *refused) {
  mx_how how = {body ? MX_HAS_BODY : 0, timeout_ms, max_redirects, 0};
  uint32_t ticket;
  return mx_multi_add(multi, handle, method, strlen(method), url, strlen(url), fields, strlen(fields), body ? body : "",
                      body ? strlen(body) : 0, &how, &ticket, refused);
}

/* performs, and waits for the descriptor, 20 ms at most; returns how many transfers run */
static uint32_t go_on(mx_multi multi) {
  uint32_t running = 0;
  IS(mx_multi_perform(multi, &running), MXM_OK);
  return running;
}
static void wait_for(mx_multi multi, int most) {
  struct pollfd descriptor = {mx_multi_fd(multi), POLLIN, 0};
  int64_t wait = mx_multi_timeout(multi);
  if (wait < 0 || wait > most) wait = most;
  if (wait > 0) poll(&descriptor, 1, (int)wait);
}

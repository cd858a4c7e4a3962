/* Makes each call of mx_multi.h: calls PORT SILENT CUT [no-fork]. At PORT a server answers /small (10,240 bytes), /chunked (the same, in
   chunks) and /here (302 to /small); at SILENT one takes connections and says nothing; at CUT one closes in the middle of a body. Prints a
   line for each answer that isn't as expected, and ends with 1 then. */
#include "common.h"
#include <signal.h>
#include <stdlib.h>
#include <sys/epoll.h>
#include <sys/eventfd.h>
#include <sys/wait.h>
#include <unistd.h>

/* performs until a message came: 1; 0 where none came within so many turns of at most 20 ms */
static int until(mx_multi multi, mx_message *message, mx_outcome *outcome, int turns) {
  for (; turns > 0; turns--) {
    go_on(multi);
    if (mx_multi_info_read(multi, message, &outcome->at) == MXM_OK) return 1;
    wait_for(multi, 20);
  }
  return 0;
}

static void ends(mx_multi multi, const char *method, const char *url, uint32_t timeout_ms, mx_code code, uint32_t status, uint32_t hops,
                 uint64_t body) {
  mx_code refused = 0;
  mx_message message = {0, 0, 0, 0};
  mx_outcome outcome = {NULL};
  mx_end end = {0, 0, 0, 0, 0};
  IS(add(multi, 1, method, url, "", NULL, timeout_ms, 5, &refused), MXM_OK);
  IS(until(multi, &message, &outcome, 500), 1);
  if (outcome.at == NULL) return;
  IS(message.handle, 1);
  IS(message.code, code);
  IS(message.left, 0);
  IS(mx_outcome_end(outcome, &end), MXM_OK);
  IS(end.code, code);
  IS(end.status, status);
  IS(end.hops, hops);
  IS(end.body, body);
  IS(mx_outcome_status(outcome, hops - 1), status);
  IS(mx_outcome_status(outcome, hops), 0);
  mx_outcome_close(outcome);
  IS(mx_multi_remove(multi, 1), MXM_OK);
}

static mx_state state_of(mx_multi multi, uint32_t handle) {
  mx_state state = {99, 99, 99};
  IS(mx_multi_state(multi, handle, &state), MXM_OK);
  return state;
}

static void opens(void) {
  mx_multi multi = {NULL};
  IS(mx_multi_open(3, 8, &multi.at), MXM_BAD_ARGUMENT);
  IS(mx_multi_open(1048577, 8, &multi.at), MXM_BAD_ARGUMENT);
  IS(mx_multi_open(64, 65, &multi.at), MXM_BAD_ARGUMENT);
  IS(multi.at == NULL, 1);
  IS(mx_multi_open(64, 0, &multi.at), MXM_OK);
  IS(mx_multi_timeout(multi), -1);
  IS(go_on(multi), 0);
  IS(mx_multi_timeout(multi), -1);
  IS(mx_multi_fd(multi) > 2, 1);
  mx_message message;
  void *at = NULL;
  IS(mx_multi_info_read(multi, &message, &at), MXM_EMPTY);
  IS(at == NULL, 1);
  mx_multi_close(multi);
}

static void refuses(mx_multi multi, const char *small) {
  mx_code refused = 0;
  IS(add(multi, 1, "GET", "ftp://a.example/", "", NULL, 0, 0, &refused), MXM_BAD_ARGUMENT);
  IS(refused, 1);
  IS(add(multi, 1, "GET", "http://", "", NULL, 0, 0, &refused), MXM_BAD_ARGUMENT);
  IS(refused, 3);
  refused = 0;
  IS(add(multi, 1, "GET", "http://user@a.example/", "", NULL, 0, 0, &refused), MXM_BAD_ARGUMENT);
  IS(refused, 3);
  IS(add(multi, 1, "get", small, "", NULL, 0, 0, &refused), MXM_BAD_ARGUMENT);
  IS(refused, 1);
  IS(add(multi, 1, "GET", small, "No colon\r\n", NULL, 0, 0, &refused), MXM_BAD_ARGUMENT);
  IS(refused, 3);
  refused = 0;
  IS(add(multi, 1, "GET", small, "A name: x\r\n", NULL, 0, 0, &refused), MXM_BAD_ARGUMENT);
  IS(refused, 3);
  static char large[1048578];
  memset(large, 'x', sizeof large - 1);
  IS(add(multi, 1, "POST", small, "", large, 0, 0, &refused), MXM_BAD_ARGUMENT);
  IS(refused, 63);
  IS(state_of(multi, 1).state, MX_STATE_NOT_ADDED);
  IS(mx_multi_timeout(multi), -1);
}

/* pauses, resumes, removes, and adds again */
static void changes(mx_multi multi, const char *small, const char *silent) {
  mx_code refused = 0;
  mx_message message = {0, 0, 0, 0};
  mx_outcome outcome = {NULL};
  uint32_t handles[4] = {0, 0, 0, 0};
  IS(add(multi, 7, "GET", silent, "X-A: b\r\nUser-Agent: t\r\n", NULL, 0, 0, &refused), MXM_OK);
  IS(add(multi, 7, "GET", silent, "", NULL, 0, 0, &refused), MXM_ADDED_ALREADY);
  IS(mx_multi_timeout(multi), 0);
  IS(go_on(multi), 1);
  IS(mx_multi_retire(multi), MXM_OK);
  IS(mx_multi_handles(multi, handles, 4), 1);
  IS(handles[0], 7);
  IS(mx_multi_handles(multi, handles, 0), 1);
  IS(state_of(multi, 7).state, MX_STATE_RUNNING);
  IS(state_of(multi, 7).code, MX_NOT_TOLD);
  IS(mx_multi_pause(multi, 7), MXM_OK);
  IS(mx_multi_pause(multi, 7), MXM_OK);
  IS(state_of(multi, 7).state, MX_STATE_PAUSED);
  IS(mx_multi_unpause(multi, 7), MXM_OK);
  IS(mx_multi_unpause(multi, 8), MXM_NOT_ADDED);
  IS(mx_multi_remove(multi, 7), MXM_OK);
  IS(mx_multi_remove(multi, 7), MXM_OK);
  IS(go_on(multi), 0);
  IS(state_of(multi, 7).ticket, MX_NOT_TOLD);
  IS(mx_multi_retire(multi), MXM_OK);
  /* no message while it is paused */
  IS(add(multi, 9, "POST", small, "", "a=b", 0, 0, &refused), MXM_OK);
  IS(mx_multi_pause(multi, 9), MXM_OK);
  IS(until(multi, &message, &outcome, 5), 0);
  IS(mx_multi_unpause(multi, 9), MXM_OK);
  IS(until(multi, &message, &outcome, 500), 1);
  IS(message.handle, 9);
  IS(state_of(multi, 9).state, MX_STATE_READ);
  IS(state_of(multi, 9).code, 0);
  IS(state_of(multi, 9).ticket, message.ticket);
  IS(mx_multi_pause(multi, 9), MXM_NOT_RUNNING);
  IS(mx_multi_remove(multi, 9), MXM_OK);
  char bytes[64];
  IS(mx_outcome_wire(outcome, 0, 0, bytes, 8), 8);
  IS(memcmp(bytes, "HTTP/1.1", 8), 0);
  IS(mx_outcome_heads(outcome, 0, 9, bytes, 3), 3);
  IS(memcmp(bytes, "200", 3), 0);
  IS(mx_outcome_request(outcome, 0, 0, bytes, 12), 12);
  IS(memcmp(bytes, "POST /small ", 12), 0);
  IS(mx_outcome_request(outcome, 1, 0, bytes, 12), 0);
  IS(mx_outcome_wire(outcome, 0, UINT64_MAX, bytes, 12), 0);
  /* an outcome isn't a multi handle, and the other way round */
  mx_multi no_multi = {outcome.at};
  mx_outcome no_outcome = {multi.at};
  mx_end end;
  uint32_t running;
  IS(mx_multi_remove(no_multi, 1), MXM_BAD_ARGUMENT);
  IS(mx_multi_perform(no_multi, &running), MXM_BAD_ARGUMENT);
  IS(mx_multi_fd(no_multi), -1);
  IS(mx_outcome_end(no_outcome, &end), MXM_BAD_ARGUMENT);
  IS(mx_outcome_body(no_outcome, 0, bytes, 64), 0);
  IS(mx_outcome_part(no_outcome, 0, &(const uint8_t *){NULL}, &(uint64_t){0}), MXM_EMPTY);
  IS(mx_multi_resolve(no_multi, "a", 1, "127.0.0.1", 9), MXM_BAD_ARGUMENT);
  mx_outcome_close(outcome);
}

/* the body in pieces of each length, forwards, and from each place */
static void copies(mx_multi multi, const char *url) {
  mx_code refused = 0;
  mx_message message;
  mx_outcome outcome = {NULL};
  static unsigned char whole[10240], piece[10240];
  IS(add(multi, 3, "GET", url, "", NULL, 0, 0, &refused), MXM_OK);
  IS(until(multi, &message, &outcome, 500), 1);
  if (outcome.at == NULL) return;
  IS(mx_outcome_body(outcome, 0, whole, sizeof whole), sizeof whole);
  for (size_t i = 0; i < sizeof whole; i++)
    if (whole[i] != i % 251) { IS(i, -1); break; }
  for (size_t room = 1; room < sizeof piece; room = room * 3 + 1)
    for (uint64_t from = 0, many; (many = mx_outcome_body(outcome, from, piece, room)) > 0; from += many)
      if (many > room || memcmp(piece, whole + from, many)) { IS(from, -1); break; }
  for (uint64_t from = sizeof whole; from > 0; from -= 37 > from ? from : 37)
    IS(mx_outcome_body(outcome, from, piece, 1), from < sizeof whole);
  IS(mx_outcome_body(outcome, sizeof whole, piece, 64), 0);
  IS(mx_multi_remove(multi, 3), MXM_OK);
  mx_outcome_close(outcome);
}

/* the parts of the body, joined, are its copy */
static void parts(mx_multi multi, const char *url, uint32_t count) {
  mx_code refused = 0;
  mx_message message;
  mx_outcome outcome = {NULL};
  static unsigned char whole[10240];
  const uint8_t *at = NULL;
  uint64_t len = 0, joined = 0;
  uint32_t part = 0;
  IS(add(multi, 3, "GET", url, "", NULL, 0, 0, &refused), MXM_OK);
  IS(until(multi, &message, &outcome, 500), 1);
  if (outcome.at == NULL) return;
  IS(mx_outcome_body(outcome, 0, whole, sizeof whole), sizeof whole);
  for (; mx_outcome_part(outcome, part, &at, &len) == MXM_OK; part++, joined += len)
    if (joined + len > sizeof whole || memcmp(at, whole + joined, len)) { IS(part, -1); break; }
  IS(part, count);
  IS(joined, sizeof whole);
  IS(mx_outcome_part(outcome, UINT32_MAX, &at, &len), MXM_EMPTY);
  IS(mx_multi_remove(multi, 3), MXM_OK);
  mx_outcome_close(outcome);
}

static mx_mcode resolve(mx_multi multi, const char *host, const char *addresses) {
  return mx_multi_resolve(multi, host, strlen(host), addresses, strlen(addresses));
}

/* hosts that no name server has, at addresses of the caller's: the first of them answers on no port, the second does */
static void resolves(const char *port) {
  mx_multi multi = {NULL};
  char url[99], other[99];
  snprintf(url, sizeof url, "http://Given.Invalid:%s/small", port);
  snprintf(other, sizeof other, "http://other.invalid:%s/small", port);
  IS(mx_multi_open(64, 0, &multi.at), MXM_OK);
  IS(resolve(multi, "given.invalid", "127.0.0.1,"), MXM_BAD_ARGUMENT);
  IS(resolve(multi, "given.invalid", "127.0.0.1:80"), MXM_BAD_ARGUMENT);
  IS(resolve(multi, "given.invalid", "[::1]"), MXM_BAD_ARGUMENT);
  IS(resolve(multi, "given.invalid", "localhost"), MXM_BAD_ARGUMENT);
  IS(resolve(multi, "given.invalid", "127.0.0.1, 127.0.0.1"), MXM_BAD_ARGUMENT);
  IS(resolve(multi, "given\xff", "127.0.0.1"), MXM_BAD_ARGUMENT);
  ends(multi, "GET", url, 0, 6, 0, 1, 0);
  IS(resolve(multi, "GIVEN.invalid", "::1,127.0.0.1"), MXM_OK);
  ends(multi, "GET", url, 0, 0, 200, 1, 10240);
  ends(multi, "GET", other, 0, 6, 0, 1, 0);
  IS(resolve(multi, "given.invalid", "127.0.0.2"), MXM_OK);
  ends(multi, "GET", url, 0, 7, 0, 1, 0);
  IS(resolve(multi, "given.invalid", "127.0.0.1"), MXM_OK);
  IS(resolve(multi, "other.invalid", "127.0.0.1"), MXM_OK);
  ends(multi, "GET", url, 0, 0, 200, 1, 10240);
  ends(multi, "GET", other, 0, 0, 200, 1, 10240);
  IS(resolve(multi, "given.invalid", ""), MXM_OK);
  IS(resolve(multi, "given.invalid", ""), MXM_OK);
  ends(multi, "GET", url, 0, 6, 0, 1, 0);
  ends(multi, "GET", other, 0, 0, 200, 1, 10240);
  mx_multi_close(multi);
}

/* an eventfd of the caller's ends a wait for the descriptor */
static void wakes(mx_multi multi, const char *silent) {
  mx_code refused = 0;
  uint64_t one = 1;
  IS(add(multi, 4, "GET", silent, "", NULL, 0, 0, &refused), MXM_OK);
  struct pollfd descriptor = {mx_multi_fd(multi), POLLIN, 0};
  do go_on(multi);
  while (poll(&descriptor, 1, 50) == 1);
  int bell = eventfd(0, EFD_NONBLOCK);
  struct epoll_event event = {.events = EPOLLIN | EPOLLET, .data.u64 = 0};
  IS(epoll_ctl(mx_multi_fd(multi), EPOLL_CTL_ADD, bell, &event), 0);
  IS(poll(&descriptor, 1, 50), 0);
  IS(write(bell, &one, sizeof one), sizeof one);
  IS(poll(&descriptor, 1, 5000), 1);
  IS(go_on(multi), 1);
  IS(poll(&descriptor, 1, 50), 0);
  close(bell);
}

static volatile sig_atomic_t pipes;
static void count_pipe(int number) { (void)number; pipes++; }

/* a server that closes while a body is sent raises no SIGPIPE */
static void sends(mx_multi multi, const char *cut) {
  mx_code refused = 0;
  mx_message message;
  mx_outcome outcome = {NULL};
  static char body[1000001];
  memset(body, 'x', sizeof body - 1);
  signal(SIGPIPE, count_pipe);
  for (int time = 0; time < 3; time++) {
    IS(add(multi, 5, "POST", cut, "", body, 0, 0, &refused), MXM_OK);
    IS(until(multi, &message, &outcome, 500), 1);
    if (outcome.at == NULL) return;
    IS(message.code != 0, 1);
    mx_outcome_close(outcome);
    IS(mx_multi_remove(multi, 5), MXM_OK);
  }
  IS(pipes, 0);
}

/* a child has a multi handle of its own, while a transfer of its parent's runs */
static void forks(mx_multi multi, const char *small) {
  mx_code refused = 0;
  mx_message message = {0, 0, 0, 0};
  mx_outcome outcome = {NULL};
  int status = 1;
  IS(add(multi, 6, "GET", small, "", NULL, 0, 0, &refused), MXM_OK);
  go_on(multi);
  pid_t child = fork();
  if (child == 0) {
    mx_multi own = {NULL};
    IS(mx_multi_open(64, 8, &own.at), MXM_OK);
    ends(own, "GET", small, 0, 0, 200, 1, 10240);
    mx_multi_close(own);
    _exit(failed);
  }
  IS(waitpid(child, &status, 0), child);
  IS(status, 0);
  IS(until(multi, &message, &outcome, 500), 1);
  IS(message.code, 0);
  IS(mx_multi_remove(multi, 6), MXM_OK);
  if (outcome.at != NULL) mx_outcome_close(outcome);
}

int main(int argc, char **argv) {
  char small[99], chunked[99], here[99], named[99], silent[99], cut[99], closed[] = "http://127.0.0.1:1/";
  if (argc < 4) return 2;
  snprintf(small, sizeof small, "http://127.0.0.1:%s/small", argv[1]);
  snprintf(chunked, sizeof chunked, "http://127.0.0.1:%s/chunked", argv[1]);
  snprintf(here, sizeof here, "http://127.0.0.1:%s/here", argv[1]);
  snprintf(named, sizeof named, "http://localhost:%s/small", argv[1]);
  snprintf(silent, sizeof silent, "http://127.0.0.1:%s/", argv[2]);
  snprintf(cut, sizeof cut, "http://127.0.0.1:%s/", argv[3]);
  mx_multi multi = {NULL};
  opens();
  resolves(argv[1]);
  IS(mx_multi_open(64, 8, &multi.at), MXM_OK);
  refuses(multi, small);
  ends(multi, "GET", small, 0, 0, 200, 1, 10240);
  ends(multi, "HEAD", small, 0, 0, 200, 1, 0);
  ends(multi, "GET", chunked, 0, 0, 200, 1, 10240);
  ends(multi, "GET", here, 0, 0, 200, 2, 10240);
  ends(multi, "GET", named, 0, 0, 200, 1, 10240);
  ends(multi, "GET", closed, 0, 7, 0, 1, 0);
  ends(multi, "GET", silent, 150, 28, 0, 1, 0);
  ends(multi, "GET", cut, 0, 18, 200, 1, 0);
  IS(mx_multi_retire(multi), MXM_OK);
  changes(multi, small, silent);
  copies(multi, small);
  copies(multi, chunked);
  parts(multi, small, 1);
  parts(multi, chunked, 11);
  IS(mx_multi_retire(multi), MXM_OK);
  sends(multi, cut);
  if (argc == 4) forks(multi, small);
  wakes(multi, silent);
  mx_multi_close(multi); /* while a transfer runs */
  mx_code refused = 0;
  mx_message message;
  mx_outcome outcome = {NULL};
  IS(mx_multi_open(8, 0, &multi.at), MXM_OK);
  IS(add(multi, 1, "GET", closed, "", NULL, 0, 0, &refused), MXM_OK);
  IS(add(multi, 2, "GET", closed, "", NULL, 0, 0, &refused), MXM_OK);
  IS(add(multi, 3, "GET", closed, "", NULL, 0, 0, &refused), MXM_HISTORY_FULL);
  IS(until(multi, &message, &outcome, 500), 1);
  IS(message.left, 1);
  mx_multi_close(multi); /* while a message waits */
  mx_end end = {0, 0, 0, 0, 0};
  IS(mx_outcome_end(outcome, &end), MXM_OK); /* it outlives its multi handle */
  IS(end.code, 7);
  mx_outcome_close(outcome);
  puts(failed ? "failed" : "each answer is as expected");
  return failed;
}

/* What checks/c/many.c does, over libcurl: many-curl URL COUNT AT-ONCE LENGTH. Prints how many bodies of that length came. */
#include <curl/curl.h>
#include <stdio.h>
#include <stdlib.h>
#include <string.h>

struct body { char *bytes; size_t length; };

static size_t take(char *bytes, size_t one, size_t count, void *of) {
  struct body *body = of;
  char *more = realloc(body->bytes, body->length + one * count);
  if (more == NULL) return 0;
  memcpy(more + body->length, bytes, one * count);
  body->bytes = more;
  body->length += one * count;
  return one * count;
}

int main(int argc, char **argv) {
  if (argc < 5) return 2;
  unsigned count = (unsigned)atoi(argv[2]), at_once = (unsigned)atoi(argv[3]), added = 0, done = 0, right = 0;
  size_t length = (size_t)atoll(argv[4]);
  curl_global_init(CURL_GLOBAL_DEFAULT);
  CURLM *multi = curl_multi_init();
  curl_multi_setopt(multi, CURLMOPT_MAXCONNECTS, 64L);
  curl_multi_setopt(multi, CURLMOPT_MAX_TOTAL_CONNECTIONS, 64L);
  while (done < count) {
    for (; added < count && added - done < at_once; added++) {
      CURL *easy = curl_easy_init();
      struct body *body = calloc(1, sizeof *body);
      curl_easy_setopt(easy, CURLOPT_URL, argv[1]);
      curl_easy_setopt(easy, CURLOPT_WRITEFUNCTION, take);
      curl_easy_setopt(easy, CURLOPT_WRITEDATA, body);
      curl_easy_setopt(easy, CURLOPT_PRIVATE, body);
      curl_easy_setopt(easy, CURLOPT_FOLLOWLOCATION, 1L);
      curl_multi_add_handle(multi, easy);
    }
    int running, left;
    unsigned before = done;
    curl_multi_perform(multi, &running);
    for (CURLMsg *message; (message = curl_multi_info_read(multi, &left)) != NULL; done++) {
      CURL *easy = message->easy_handle;
      struct body *body;
      curl_easy_getinfo(easy, CURLINFO_PRIVATE, &body);
      right += message->data.result == CURLE_OK && body->length == length;
      curl_multi_remove_handle(multi, easy);
      curl_easy_cleanup(easy);
      free(body->bytes);
      free(body);
    }
    /* what waited for a connection that is free now is begun by the next call */
    if (done == before) curl_multi_poll(multi, NULL, 0, 1000, NULL);
  }
  curl_multi_cleanup(multi);
  printf("%u of %u are right\n", right, count);
  return right != count;
}

/* The same bodies, decoded by a loop written by hand: it keeps the parts, looks at no data, and copies the pieces into one
 * buffer as the decoder does. Shape, count and piece length as in the program beside it. */
#include <stdio.h>
#include <stdlib.h>
#include <string.h>

enum place { START, SIZE, EXT, SIZE_LF, DATA, DATA_CR, DATA_LF, TRAILER_START, TRAILER, TRAILER_LF, END_LF, DONE, BAD };

struct part { unsigned start, end; };

static char *wire;
static size_t fed, room, at;
static struct part *parts;
static size_t count, parts_room;
static enum place place = START;
static unsigned size;

static int hex(unsigned char b) {
  if (b >= '0' && b <= '9') return b - '0';
  b |= 32;
  if (b >= 'a' && b <= 'f') return b - 'a' + 10;
  return -1;
}

static void add(unsigned start, unsigned end) {
  if (count == parts_room) {
    parts_room = parts_room ? 2 * parts_room : 4;
    parts = realloc(parts, parts_room * sizeof *parts);
    if (!parts) exit(1);
  }
  parts[count].start = start;
  parts[count++].end = end;
}

static void feed(const char *piece, size_t len) {
  if (room - fed < len) {
    room = 2 * room > fed + len ? 2 * room : fed + len;
    wire = realloc(wire, room);
    if (!wire) exit(1);
  }
  memcpy(wire + fed, piece, len);
  fed += len;
  while (at < fed) {
    unsigned char b = wire[at];
    switch (place) {
    case START:
    case SIZE: {
      int d = hex(b);
      if (d >= 0) {
        size = (place == START ? 0 : size * 16) + d;
        place = size > 67108864 ? BAD : SIZE;
      } else if (place == START) place = BAD;
      else place = b == '\r' ? SIZE_LF : b == ';' || b == ' ' || b == '\t' ? EXT : BAD;
      at++;
      break;
    }
    case EXT: if (b == '\r') place = SIZE_LF; else if (b == '\n') place = BAD; at++; break;
    case SIZE_LF:
      at++;
      if (b != '\n') place = BAD;
      else if (size) { add(at, at + size); place = DATA; }
      else place = TRAILER_START;
      break;
    case DATA: {
      size_t there = fed - at;
      if (there < size) { size -= there; at = fed; }
      else { at += size; place = DATA_CR; }
      break;
    }
    case DATA_CR: place = b == '\r' ? DATA_LF : BAD; at++; break;
    case DATA_LF: place = b == '\n' ? START : BAD; at++; break;
    case TRAILER_START: place = b == '\r' ? END_LF : b == '\n' ? BAD : TRAILER; at++; break;
    case TRAILER: if (b == '\r') place = TRAILER_LF; else if (b == '\n') place = BAD; at++; break;
    case TRAILER_LF: place = b == '\n' ? TRAILER_START : BAD; at++; break;
    case END_LF: place = b == '\n' ? DONE : BAD; at++; break;
    default: return;
    }
  }
}

static char *bytes;
static size_t total;

static void put(const char *unit, size_t len) { memcpy(bytes + total, unit, len); total += len; }

int main(int argc, char **argv) {
  if (argc < 4) return 2;
  const char *shape = argv[1];
  size_t n = strtoul(argv[2], NULL, 10), len = strtoul(argv[3], NULL, 10);
  static char block[16384];
  memset(block, 'x', sizeof block);
  bytes = malloc(100000 + n * (strcmp(shape, "blocks") ? 1100 : 16400));
  if (!bytes) return 1;
  if (!strcmp(shape, "extension")) put("0;", 2);
  if (!strcmp(shape, "trailer")) put("0\r\nA: ", 6);
  if (!strcmp(shape, "trailers")) put("0\r\n", 3);
  for (size_t i = 0; i < n; i++) {
    if (!strcmp(shape, "bytes")) put("1\r\nx\r\n", 6);
    if (!strcmp(shape, "hundreds")) { put("64\r\n", 4); put(block, 100); put("\r\n", 2); }
    if (!strcmp(shape, "blocks")) { put("4000\r\n", 6); put(block, 16384); put("\r\n", 2); }
    if (!strcmp(shape, "extension") || !strcmp(shape, "trailer")) put(block, 1024);
    if (!strcmp(shape, "trailers")) put("A: b\r\n", 6);
  }
  if (!strcmp(shape, "extension") || !strcmp(shape, "trailer")) put("\r\n\r\n", 4);
  else if (!strcmp(shape, "trailers")) put("\r\n", 2);
  else put("0\r\n\r\n", 5);
  if (len)
    for (size_t i = 0; i < total; i += len) feed(bytes + i, total - i < len ? total - i : len);
  puts(!len || place == DONE ? "complete" : "not complete");
  return 0;
}

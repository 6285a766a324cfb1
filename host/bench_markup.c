/* Reading one catalogue of 64 MiB: the markup reader, expat, and libxml2's SAX reader, on the same bytes in one run.
   Built by bench_markup.sh, with HAVE_EXPAT and HAVE_LIBXML2 where those libraries are there. */
#include <stdint.h>
#include <stdio.h>
#include <stdlib.h>
#include <string.h>
#include <time.h>
#ifdef HAVE_EXPAT
#include <expat.h>
#endif
#ifdef HAVE_LIBXML2
#include <libxml/parser.h>
#endif

uint32_t markup_number(const uint8_t *text, size_t length);
uint64_t markup_tags(const uint8_t *text, size_t length);

static uint32_t state = 2463534242u;
static uint32_t draw(uint32_t below) {
  state ^= state << 13;
  state ^= state >> 17;
  state ^= state << 5;
  return state % below;
}

static const char *words[] = {"reel", "of", "the", "first", "survey", "copied", "from", "tape", "seven", "in", "a", "sealed", "box", "and", "shelved", "again"};

/* folders with items, attributes, comments and text, in one outermost folder */
static size_t catalogue(char *out, size_t length) {
  size_t n = (size_t)sprintf(out, "<archive>\n");
  uint32_t item = 0;
  while (n + 4096 < length) {
    n += (size_t)sprintf(out + n, "<folder name=\"f%u\" shelf='%u'>\n", item, draw(900));
    for (uint32_t i = 2 + draw(5); i > 0; i--) {
      item++;
      n += (size_t)sprintf(out + n, "  <reel id=\"r%u\" barcode=\"%08u\" kind='%s'>", item, draw(100000000), draw(2) ? "film" : "tape &amp; film");
      for (uint32_t w = 4 + draw(12); w > 0; w--) n += (size_t)sprintf(out + n, "%s ", words[draw(16)]);
      if (draw(4) == 0) n += (size_t)sprintf(out + n, "&lt;%u&gt;", draw(100));
      n += (size_t)sprintf(out + n, "</reel>\n");
      if (draw(3) == 0) n += (size_t)sprintf(out + n, "  <seal id=\"s%u\"/>\n", item);
      if (draw(6) == 0) n += (size_t)sprintf(out + n, "  <!-- checked by hand, shelf %u - row %u -->\n", draw(900), draw(40));
    }
    n += (size_t)sprintf(out + n, "</folder>\n");
  }
  n += (size_t)sprintf(out + n, "</archive>\n");
  return n;
}

static double now(void) {
  struct timespec t;
  clock_gettime(CLOCK_MONOTONIC, &t);
  return (double)t.tv_sec + (double)t.tv_nsec / 1e9;
}

#ifdef HAVE_EXPAT
static uint64_t expat_tags;
static void XMLCALL expat_start(void *data, const char *name, const char **attributes) { (void)data; (void)name; (void)attributes; expat_tags++; }
static void XMLCALL expat_end(void *data, const char *name) { (void)data; (void)name; expat_tags++; }
static uint64_t read_expat(const char *text, size_t length) {
  XML_Parser parser = XML_ParserCreate(NULL);
  XML_SetElementHandler(parser, expat_start, expat_end);
  expat_tags = 0;
  if (XML_Parse(parser, text, (int)length, 1) != XML_STATUS_OK) { fprintf(stderr, "expat refuses the text\n"); exit(1); }
  XML_ParserFree(parser);
  return expat_tags;
}
#endif

#ifdef HAVE_LIBXML2
static uint64_t libxml_tags;
static void libxml_start(void *data, const xmlChar *name, const xmlChar *prefix, const xmlChar *uri, int namespaces, const xmlChar **ns, int attributes, int defaulted, const xmlChar **list) {
  (void)data; (void)name; (void)prefix; (void)uri; (void)namespaces; (void)ns; (void)attributes; (void)defaulted; (void)list;
  libxml_tags++;
}
static void libxml_end(void *data, const xmlChar *name, const xmlChar *prefix, const xmlChar *uri) { (void)data; (void)name; (void)prefix; (void)uri; libxml_tags++; }
static uint64_t read_libxml(const char *text, size_t length) {
  xmlSAXHandler handler;
  memset(&handler, 0, sizeof handler);
  handler.initialized = XML_SAX2_MAGIC;
  handler.startElementNs = libxml_start;
  handler.endElementNs = libxml_end;
  libxml_tags = 0;
  if (xmlSAXUserParseMemory(&handler, NULL, text, (int)length) != 0) { fprintf(stderr, "libxml2 refuses the text\n"); exit(1); }
  return libxml_tags;
}
#endif

static double best(uint64_t (*read)(const char *, size_t), const char *text, size_t length, uint64_t *tags) {
  double least = 1e9;
  for (int turn = 0; turn < 5; turn++) {
    double start = now();
    *tags = read(text, length);
    double taken = now() - start;
    if (taken < least) least = taken;
  }
  return least;
}

static uint64_t read_markup(const char *text, size_t length) { return markup_tags((const uint8_t *)text, length); }

int main(void) {
  size_t room = (size_t)64 << 20;
  char *text = malloc(room);
  if (!text) return 1;
  size_t length = catalogue(text, room);
  if (markup_number((const uint8_t *)text, length) != 0) { fprintf(stderr, "the reader refuses the text\n"); return 1; }
  uint64_t tags, other;
  double own = best(read_markup, text, length, &tags);
  printf("%zu bytes, %llu tags; best of 5 turns each\n", length, (unsigned long long)tags);
  printf("markup   %7.0f MB/s\n", (double)length / own / 1e6);
#ifdef HAVE_EXPAT
  double e = best(read_expat, text, length, &other);
  printf("expat    %7.0f MB/s   markup is %.1f times as fast\n", (double)length / e / 1e6, e / own);
  if (other != tags) { fprintf(stderr, "expat has %llu tags\n", (unsigned long long)other); return 1; }
#else
  printf("expat    left out: no expat.h (package libexpat1-dev)\n");
#endif
#ifdef HAVE_LIBXML2
  double x = best(read_libxml, text, length, &other);
  printf("libxml2  %7.0f MB/s   markup is %.1f times as fast\n", (double)length / x / 1e6, x / own);
  if (other != tags) { fprintf(stderr, "libxml2 has %llu tags\n", (unsigned long long)other); return 1; }
#else
  printf("libxml2  left out: no libxml2 headers (package libxml2-dev)\n");
#endif
  (void)other;
  free(text);
  return 0;
}

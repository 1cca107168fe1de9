// Counts the instructions of the program that qemu's user emulator runs, for .ci/count: a plugin. Its arguments are the file for the number, the file for
// where they were executed, and the program's whole path. A place is a line: the address in the program, 0 for all that lies outside it, a 1, and how many.
// The declarations are those of qemu's plugin interface, version 1, which qemu has up to 8.2.
#include <inttypes.h>
#include <stddef.h>
#include <stdint.h>
#include <stdio.h>
#include <stdlib.h>
#include <string.h>

typedef uint64_t qemu_plugin_id_t;
typedef struct qemu_info_t qemu_info_t;
struct qemu_plugin_tb;
struct qemu_plugin_insn;
enum qemu_plugin_op { QEMU_PLUGIN_INLINE_ADD_U64 };
typedef void (*translated_t)(qemu_plugin_id_t, struct qemu_plugin_tb *);
typedef void (*ended_t)(qemu_plugin_id_t, void *);
void qemu_plugin_register_vcpu_tb_trans_cb(qemu_plugin_id_t, translated_t);
void qemu_plugin_register_vcpu_tb_exec_inline(struct qemu_plugin_tb *, enum qemu_plugin_op, void *, uint64_t);
void qemu_plugin_register_atexit_cb(qemu_plugin_id_t, ended_t, void *);
size_t qemu_plugin_tb_n_insns(const struct qemu_plugin_tb *);
struct qemu_plugin_insn *qemu_plugin_tb_get_insn(const struct qemu_plugin_tb *, size_t);
void *qemu_plugin_insn_haddr(const struct qemu_plugin_insn *);

int qemu_plugin_version = 1;

struct block {
  uint64_t executed;
  uintptr_t at;
  struct block *next;
};

static struct block *blocks;
static const char *to, *places, *program;

// Each time this block runs, its instructions are added.
static void translated(qemu_plugin_id_t id, struct qemu_plugin_tb *made) {
  (void)id;
  struct block *block = malloc(sizeof *block);
  if (!block) abort();
  *block = (struct block){0, (uintptr_t)qemu_plugin_insn_haddr(qemu_plugin_tb_get_insn(made, 0)), blocks};
  blocks = block;
  qemu_plugin_register_vcpu_tb_exec_inline(made, QEMU_PLUGIN_INLINE_ADD_U64, &block->executed, qemu_plugin_tb_n_insns(made));
}

// From where to where the program lies in the emulator's memory.
static void find_program(uintptr_t *start, uintptr_t *end) {
  FILE *maps = fopen("/proc/self/maps", "r");
  char line[8192];
  *start = *end = 0;
  while (maps && fgets(line, sizeof line, maps)) {
    uintptr_t from, behind;
    char *path = strchr(line, '/');
    line[strcspn(line, "\n")] = 0;
    if (!path || strcmp(path, program) || sscanf(line, "%" SCNxPTR "-%" SCNxPTR, &from, &behind) != 2) continue;
    if (!*start) *start = from;
    *end = behind;
  }
  if (maps) fclose(maps);
}

static void ended(qemu_plugin_id_t id, void *nothing) {
  (void)id, (void)nothing;
  uint64_t all = 0, outside = 0;
  uintptr_t start, end;
  find_program(&start, &end);
  FILE *number = start ? fopen(to, "w") : NULL, *by_place = fopen(places, "w");
  if (!number || !by_place) return;
  for (struct block *block = blocks; block; block = block->next) {
    all += block->executed;
    if (start <= block->at && block->at < end) fprintf(by_place, "%016" PRIxPTR " 1 %" PRIu64 "\n", block->at - start, block->executed);
    else outside += block->executed;
  }
  fprintf(by_place, "%016x 1 %" PRIu64 "\n", 0, outside);
  // without a number .ci/count fails
  if (!fflush(by_place) && !ferror(by_place)) fprintf(number, "%" PRIu64 "\n", all);
  fclose(by_place);
  fclose(number);
}

int qemu_plugin_install(qemu_plugin_id_t id, const qemu_info_t *info, int count, char **words) {
  (void)info;
  if (count != 3 || strncmp(words[0], "to=", 3) || strncmp(words[1], "places=", 7) || strncmp(words[2], "program=", 8)) return 1;
  to = strdup(words[0] + 3);
  places = strdup(words[1] + 7);
  program = strdup(words[2] + 8);
  if (!to || !places || !program) return 1;
  qemu_plugin_register_vcpu_tb_trans_cb(id, translated);
  qemu_plugin_register_atexit_cb(id, ended, NULL);
  return 0;
}

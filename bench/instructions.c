/*
 * Counts instructions where callgrind cannot run, as a plugin of qemu's emulator:
 *
 *     qemu-x86_64 -plugin PLUGIN,out=FILE,call=NAME,..,driver=NAME,.. PROGRAM
 *
 * An instruction of a named call makes that call the current one; one of the driver, from which the calls are made, ends it; one of any other function
 * is the current call's. An instruction without a name, a jump to a function of the C library, is of the function before it. FILE gets a line for each
 * function that ran in a call: its own instructions there, all instructions of it as a named call, its name.
 */
#define _POSIX_C_SOURCE 200809L

#include <inttypes.h>
#include <stdio.h>
#include <stdlib.h>
#include <string.h>

/* Of qemu's plugin interface. */
typedef uint64_t qemu_plugin_id_t;
struct qemu_info_t;
struct qemu_plugin_tb;
struct qemu_plugin_insn;
enum qemu_plugin_cb_flags { QEMU_PLUGIN_CB_NO_REGS };

void qemu_plugin_register_vcpu_tb_trans_cb(qemu_plugin_id_t id, void (*call)(qemu_plugin_id_t, struct qemu_plugin_tb *));
size_t qemu_plugin_tb_n_insns(const struct qemu_plugin_tb *block);
struct qemu_plugin_insn *qemu_plugin_tb_get_insn(const struct qemu_plugin_tb *block, size_t n);
const char *qemu_plugin_insn_symbol(const struct qemu_plugin_insn *instruction);
void qemu_plugin_register_vcpu_insn_exec_cb(struct qemu_plugin_insn *instruction, void (*call)(unsigned, void *), enum qemu_plugin_cb_flags flags,
                                            void *given);
void qemu_plugin_register_atexit_cb(qemu_plugin_id_t id, void (*call)(qemu_plugin_id_t, void *), void *given);

extern int qemu_plugin_version;
int qemu_plugin_version = 1;

typedef enum { OTHER, CALL, DRIVER } part;

typedef struct {
    const char *name;
    part as;
    uint64_t own, all;
} function;

enum { MOST_FUNCTIONS = 8192 };

static function functions[MOST_FUNCTIONS], nameless;
static size_t known;
static function *current, *last = &nameless;
static const char *out;

static function *named(const char *name)
{
    for (size_t n = 0; n < known; n++)
        if (!strcmp(functions[n].name, name))
            return &functions[n];
    if (known == MOST_FUNCTIONS || (functions[known].name = strdup(name)) == NULL)
        abort();
    return &functions[known++];
}

static void executed(unsigned processor, void *given)
{
    function *in = given != NULL ? given : last;
    (void)processor;
    last = in;
    if (in->as != OTHER)
        current = in->as == CALL ? in : NULL;
    if (current != NULL) {
        current->all++;
        in->own++;
    }
}

static void translated(qemu_plugin_id_t id, struct qemu_plugin_tb *block)
{
    (void)id;
    for (size_t n = 0; n < qemu_plugin_tb_n_insns(block); n++) {
        struct qemu_plugin_insn *instruction = qemu_plugin_tb_get_insn(block, n);
        const char *symbol = qemu_plugin_insn_symbol(instruction);
        qemu_plugin_register_vcpu_insn_exec_cb(instruction, executed, QEMU_PLUGIN_CB_NO_REGS, symbol != NULL ? named(symbol) : NULL);
    }
}

static void ended(qemu_plugin_id_t id, void *given)
{
    FILE *file = fopen(out, "w");
    (void)id;
    (void)given;
    if (file == NULL) {
        perror(out);
        exit(1);
    }
    for (const function *in = functions; in != functions + known; in++)
        if (in->own != 0)
            fprintf(file, "%" PRIu64 " %" PRIu64 " %s\n", in->own, in->all, in->name);
    fclose(file);
}

int qemu_plugin_install(qemu_plugin_id_t id, const struct qemu_info_t *info, int count, char **arguments);

int qemu_plugin_install(qemu_plugin_id_t id, const struct qemu_info_t *info, int count, char **arguments)
{
    (void)info;
    for (int n = 0; n < count; n++) {
        if (!strncmp(arguments[n], "out=", 4))
            out = strdup(arguments[n] + 4);
        else if (!strncmp(arguments[n], "call=", 5))
            named(arguments[n] + 5)->as = CALL;
        else if (!strncmp(arguments[n], "driver=", 7))
            named(arguments[n] + 7)->as = DRIVER;
    }
    if (out == NULL)
        return 1;
    qemu_plugin_register_vcpu_tb_trans_cb(id, translated);
    qemu_plugin_register_atexit_cb(id, ended, NULL);
    return 0;
}

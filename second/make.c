/* make_vectors OUTDIR: makes every stored vector, at its place below OUTDIR. */

#include "make.h"

#include <stdlib.h>

static const char *directory;

static void save(const char *name, const struct buffer *contents)
{
    char path[1000];
    snprintf(path, sizeof path, "%s/%s", directory, name);
    FILE *file = fopen(path, "wb");
    if (file == NULL) {
        perror(path);
        exit(1);
    }
    size_t written = fwrite(contents->bytes, 1, contents->length, file);
    if (fclose(file) != 0 || written != contents->length) {
        perror(path);
        exit(1);
    }
}

static void save_vectors(struct vectors made, const char *in_name, const char *out_name)
{
    save(in_name, &made.in);
    save(out_name, &made.out);
    release(&made.in);
    release(&made.out);
}

/* What logs of either width have. */
static void bundle_both(void)
{
    bundle_paper();
    bundle_rows();
    bundle_order();
    bundle_contexts();
    bundle_sizes();
    bundle_messages();
    bundle_mixes();
}

/* The program that runs the bundle reads at most so many bytes. */
static void save_bundle(const char *in_name, const char *out_name, size_t most)
{
    if (bundle_in()->length > most) {
        fprintf(stderr, "%s: over %zu bytes\n", in_name, most);
        exit(1);
    }
    printf("logs with IDs of %u bits\n", either(16, 8));
    print_sections(stdout);
    save(in_name, bundle_in());
    save(out_name, bundle_out());
    release_bundle();
}

static void save_logs(void)
{
    bundle_both();
    bundle_broken();
    bundle_priorities();
    bundle_priority_mixes();
    save_bundle("crates/outside_logs/stdin", "crates/outside_logs/stdout", 524288);
}

static void save_logs_of_8_bits(void)
{
    eight_bits = true;
    bundle_both();
    bundle_widths();
    bundle_priorities();
    bundle_priority_mixes();
    save_bundle("crates/outside_narrow/stdin", "crates/outside_narrow/stdout", 262144);
    eight_bits = false;
}

int main(int count, char **words)
{
    if (count != 2) {
        fputs("usage: make_vectors OUTDIR\n", stderr);
        return 1;
    }
    directory = words[1];
    save_logs();
    save_logs_of_8_bits();
    save_vectors(responses(), "crates/outside_responses/stdin", "crates/outside_responses/stdout");
    save_vectors(segments(), "crates/outside_segments/stdin", "crates/outside_segments/stdout");
    save_vectors(wheels(), "logs/wheels.log", "logs/wheels.txt");
    save_vectors(lost(), "logs/lost.log", "logs/lost.txt");
    save_vectors(paper(), "logs/paper.log", "logs/paper.txt");
    return 0;
}

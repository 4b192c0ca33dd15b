/*
 * Saves a mesh to a file in the working directory, loads it as a program does that knows nothing of
 * it but the name, and removes it. The output is to be that of file.expected.
 */
#include <errno.h>
#include <stdio.h>
#include <stdlib.h>
#include <string.h>

#include "wallmirror.h"

struct mesh {
    WallmirrorPlan plan;
    uint8_t *cells, *functions;
    size_t t, f; /* their lengths */
};

/* Makes tables of the plan's lengths, for the caller to free. */
static int make_tables(struct mesh *mesh, WallmirrorPlan plan)
{
    mesh->plan = plan;
    mesh->t = wallmirror_cells_len(plan);
    mesh->f = wallmirror_functions_len(plan);
    mesh->cells = (uint8_t *)malloc(mesh->t);
    mesh->functions = (uint8_t *)malloc(mesh->f);
    if (mesh->cells && mesh->functions)
        return 1;
    fprintf(stderr, "no memory for a mesh of %lu cells\n", (unsigned long)mesh->t);
    return 0;
}

static void free_tables(struct mesh *mesh)
{
    free(mesh->cells);
    free(mesh->functions);
}

static int refused(const char *what, uint32_t number)
{
    fprintf(stderr, "%s: refusal %u, %s\n", what, (unsigned)number,
            wallmirror_refusal_text(number));
    return 0;
}

static int failed(const char *what, const char *path)
{
    fprintf(stderr, "cannot %s %s: %s\n", what, path, strerror(errno));
    return 0;
}

/* Writes the file of the mesh to the disk. */
static int save(const struct mesh *mesh, const char *path)
{
    uint8_t bytes[WALLMIRROR_MAX_FILE_BYTES];
    WallmirrorWritten written = wallmirror_write(mesh->plan, mesh->cells, mesh->t,
                                                 mesh->functions, mesh->f, bytes, sizeof bytes);
    FILE *file;
    size_t stored;
    if (written.number != WALLMIRROR_ACCEPTED)
        return refused("save", written.number);
    file = fopen(path, "wb");
    if (!file)
        return failed("open", path);
    stored = fwrite(bytes, 1, written.length, file);
    /* What fwrite took may fail to reach the disk until the file is closed. */
    if (fclose(file) != 0 || stored != written.length) {
        failed("write", path);
        remove(path);
        return 0;
    }
    return 1;
}

/* Makes the mesh of the bytes of a file. */
static int read_mesh(struct mesh *mesh, const uint8_t *bytes, size_t length)
{
    /* Empty tables are refused with 3 and the plan, or with another number: there is no plan. */
    WallmirrorRead read = wallmirror_read(bytes, length, NULL, 0, NULL, 0);
    if (read.number != WALLMIRROR_TABLE_LENGTH)
        return refused("load", read.number);
    if (!make_tables(mesh, read.plan))
        return 0;
    read = wallmirror_read(bytes, length, mesh->cells, mesh->t, mesh->functions, mesh->f);
    if (read.number != WALLMIRROR_ACCEPTED)
        return refused("load", read.number);
    return 1;
}

/* Makes the mesh of a file on the disk. */
static int load(struct mesh *mesh, const char *path)
{
    /* One byte more than the file of a mesh can have, so that a longer one is seen to be none. */
    uint8_t bytes[WALLMIRROR_MAX_FILE_BYTES + 1];
    FILE *file = fopen(path, "rb");
    size_t length, i;
    int unread;
    if (!file)
        return failed("open", path);
    length = fread(bytes, 1, sizeof bytes, file);
    unread = ferror(file);
    fclose(file);
    if (unread)
        return failed("read", path);
    printf("%lu bytes:", (unsigned long)length);
    for (i = 0; i < length; i++)
        printf(" %u", (unsigned)bytes[i]);
    printf("\n");
    return read_mesh(mesh, bytes, length);
}

/* Opens a mesh of class 2 and refines cell 0 and then cell 4, which takes cell 1 along. */
static int draw(struct mesh *mesh)
{
    static const uint32_t marks[2] = {0, 4};
    static uint32_t cell_list[WALLMIRROR_MAX_CELLS], function_list[WALLMIRROR_MAX_FUNCTIONS];
    WallmirrorPlan plan = WALLMIRROR_PLAN(3, 1, 3, 1, 1, 2);
    uint32_t number;
    int i;
    if (!make_tables(mesh, plan))
        return 0;
    number = wallmirror_open(plan, mesh->cells, mesh->t, mesh->functions, mesh->f);
    for (i = 0; i < 2 && number == WALLMIRROR_ACCEPTED; i++)
        number = wallmirror_refine_cells(plan, mesh->cells, mesh->t, mesh->functions, mesh->f,
                                         &marks[i], 1, cell_list, mesh->t, function_list, mesh->f)
                     .number;
    return number == WALLMIRROR_ACCEPTED ? 1 : refused("refine", number);
}

static int compare(const struct mesh *saved, const struct mesh *loaded)
{
    WallmirrorPlan plan = loaded->plan;
    printf("%u by %u cells, %u levels, degrees %u and %u, class %u\n", (unsigned)plan.columns,
           (unsigned)plan.rows, (unsigned)plan.levels, (unsigned)plan.degree_across,
           (unsigned)plan.degree_up, (unsigned)plan.admissibility_class);
    if (memcmp(&saved->plan, &plan, sizeof plan) != 0 ||
        memcmp(saved->cells, loaded->cells, loaded->t) != 0 ||
        memcmp(saved->functions, loaded->functions, loaded->f) != 0) {
        printf("the loaded mesh differs from the saved one\n");
        return 0;
    }
    printf("the loaded mesh is the saved one, byte for byte\n");
    return 1;
}

int main(void)
{
    static const char path[] = "wallmirror-example.mesh";
    static struct mesh drawn, loaded; /* without tables to begin with */
    int done = 0;
    if (draw(&drawn) && save(&drawn, path)) {
        done = load(&loaded, path) && compare(&drawn, &loaded);
        if (remove(path) != 0)
            done = failed("remove", path);
    }
    free_tables(&drawn);
    free_tables(&loaded);
    return done ? 0 : 1;
}

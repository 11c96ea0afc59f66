/* What a plain sum over a graph costs, beside which `bench/run pass` holds a pass of the program.
 * It reads an .nnf text into arrays, as the program holds them: for each node where its children begin, and all children one after
 * the other. Then it makes 1,000 passes that give each node the sum of its children, and prints microseconds a pass. */
#include <stdint.h>
#include <stdio.h>
#include <stdlib.h>
#include <time.h>

int main(int count, char **words) {
    FILE *text = count == 2 ? fopen(words[1], "r") : NULL;
    unsigned nodes, edges, vars;
    if (!text || fscanf(text, "nnf %u %u %u", &nodes, &edges, &vars) != 3) return 2;
    uint32_t *begin = calloc(nodes + 1, 4), *child = calloc(edges + 1, 4), *value = calloc(nodes, 4);
    if (!begin || !child || !value) return 6;
    uint32_t at = 0;
    for (uint32_t node = 0; node < nodes; node++) {
        char kind;
        int skipped, literal;
        unsigned kids = 0;
        begin[node] = at;
        if (fscanf(text, " %c", &kind) != 1) return 1;
        if (kind == 'L') {
            if (fscanf(text, "%d", &literal) != 1) return 1;
        } else if ((kind == 'O' && fscanf(text, "%d", &skipped) != 1) || fscanf(text, "%u", &kids) != 1) {
            return 1;
        }
        for (; kids; kids--)
            if (at == edges || fscanf(text, "%u", &child[at++]) != 1) return 1;
    }
    begin[nodes] = at;
    struct timespec start, end;
    clock_gettime(CLOCK_PROCESS_CPUTIME_ID, &start);
    uint32_t sum = 0;
    for (uint32_t pass = 0; pass < 1000; pass++) {
        for (uint32_t node = 0; node < nodes; node++) {
            uint32_t total = begin[node] == begin[node + 1] ? pass : 0;
            for (uint32_t kid = begin[node]; kid < begin[node + 1]; kid++) total += value[child[kid]];
            value[node] = total;
        }
        sum += value[nodes - 1];
    }
    clock_gettime(CLOCK_PROCESS_CPUTIME_ID, &end);
    printf("%.1f microseconds a pass over %u nodes and %u children (%u)\n",
           ((end.tv_sec - start.tv_sec) * 1e9 + (end.tv_nsec - start.tv_nsec)) / 1e6, nodes, edges, sum);
    return 0;
}

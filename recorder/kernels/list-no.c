// races: none
// Each lane puts a node in front of one list, under a mutex.
#include <omp.h>
#include <stdio.h>

typedef struct Node {
    struct Node *next;
} Node;

static Node node[4], *head;

int main(void)
{
#pragma omp parallel num_threads(4)
    {
        Node *mine = &node[omp_get_thread_num()];
#pragma omp critical
        {
            mine->next = head;
            head = mine;
        }
    }
    printf("%d\n", head != 0);
    return 0;
}

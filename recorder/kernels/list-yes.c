// races: 17-18 18-18
// Each lane puts a node in front of one list.
#include <omp.h>
#include <stdio.h>

typedef struct Node {
    struct Node *next;
} Node;

static Node node[4], *head;

int main(void)
{
#pragma omp parallel num_threads(4)
    {
        Node *mine = &node[omp_get_thread_num()];
        mine->next = head;
        head = mine;
    }
    printf("%d\n", head != 0);
    return 0;
}

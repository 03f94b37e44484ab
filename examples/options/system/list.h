typedef struct list list;
count list_count(list *first);

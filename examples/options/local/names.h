extern list *first;

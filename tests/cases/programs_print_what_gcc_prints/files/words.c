#include <stdio.h>
#include <stdlib.h>
#include <string.h>

/* Counts the words of a text in a list on the heap. */

struct word {
  char text[16];
  int count;
  struct word *next;
};

static const char text[] = "the cat sat on the mat and the dog sat by the cat";

static struct word *find(struct word *list, const char *text) {
  while (list && strcmp(list->text, text) != 0)
    list = list->next;
  return list;
}

static struct word *count(struct word *list, const char *text) {
  struct word *found = find(list, text);
  if (!found) {
    found = calloc(1, sizeof(struct word));
    if (!found)
      exit(1);
    strcpy(found->text, text);
    found->next = list;
    list = found;
  }
  found->count++;
  return list;
}

int main(void) {
  struct word *list = 0;
  char word[16];
  int length = 0;
  for (int i = 0; i < (int)sizeof text; i++) {
    if (text[i] != ' ' && text[i] != 0) {
      word[length++] = text[i];
    } else {
      word[length] = 0;
      list = count(list, word);
      length = 0;
    }
  }
  while (list) {
    struct word *next = list->next;
    if (list->count > 1)
      printf("%-4s%3d\n", list->text, list->count);
    free(list);
    list = next;
  }
  return 0;
}
